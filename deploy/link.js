// The number of a datagram's link: its first two octets, most significant first. For nginx (docs/CLUSTER.md).
let found = 0;

function preread(session) {
    session.on('upload', function (data, flags) {
        found = data.length < 2 ? -1 : (data.charCodeAt(0) << 8) | data.charCodeAt(1);
        session.off('upload');
        session.done();
    });
}

function number(session) {
    return String(found);
}

export default { preread, number };
