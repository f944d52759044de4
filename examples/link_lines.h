/* The settings of links as lines, for the examples. tools/link_lines.py writes them from a links file. For each link
 *     link NUMBER SIZE MAX_CID MODE K1 N1 K2 N2 PACKET_MS STATIC_NACK_MS IDLE_MS
 * and after it for each of its ranges
 *     range FIRST LAST MODE */
#ifndef LINK_LINES_H
#define LINK_LINES_H

#include <inttypes.h>
#include <stdio.h>
#include <stdlib.h>
#include <string.h>

#include "polorowan.h"

static void read_range(FILE *file, struct polorowan_range *r) {
    char mode;
    if (fscanf(file, "%" SCNu16 "%" SCNu16 " %c", &r->first, &r->last, &mode) != 3) exit(3);
    r->optimistic = mode == 'O';
}

static void read_link(FILE *file, struct polorowan_link *l) {
    char size[8], mode;
    if (fscanf(file, "%" SCNu16 "%7s%" SCNu16 " %c%" SCNu8 "%" SCNu8 "%" SCNu8 "%" SCNu8 "%" SCNu32 "%" SCNu32 "%" SCNu32,
               &l->link, size, &l->max_cid, &mode, &l->k1, &l->n1, &l->k2, &l->n2, &l->packet_ms, &l->static_nack_ms,
               &l->idle_ms) != 11) exit(3);
    l->large = strcmp(size, "large") == 0;
    l->optimistic = mode == 'O';
}

/* Reads lines into links that are all zeros, and returns how many links there are. It exits with 3 if a line is wrong. */
static size_t read_links(FILE *file, struct polorowan_link *links) {
    char word[8];
    size_t count = 0;
    while (fscanf(file, "%7s", word) == 1) {
        if (strcmp(word, "link") == 0 && count < POLOROWAN_LINKS) {
            read_link(file, &links[count++]);
        } else {
            struct polorowan_link *l = count > 0 ? &links[count - 1] : NULL;
            if (strcmp(word, "range") != 0 || !l || l->range_count == POLOROWAN_RANGES) exit(3);
            read_range(file, &l->ranges[l->range_count++]);
        }
    }
    return count;
}

#endif
