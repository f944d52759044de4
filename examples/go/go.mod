module polorowan.example/gateway

go 1.19
