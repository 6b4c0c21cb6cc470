#!/usr/bin/env bash
# The program on sessions at the edges of what is accepted, and one step beyond each edge, against the second implementation's listings.
test_name=edges
. "$(dirname "${BASH_SOURCE[0]}")/listings.sh"

edge empty 0 1 10 'refused 1'
edge below-least 2196 1 10 'refused 1'
edge least 2197 2 49 'tries 8 8 8 8 8 8 8 8 8 8 8 8 8 8 8 8 8' 'fuses 07'
# 4,096 records of all kinds, a log of 65,536 bytes; then the same with a byte, a record or a log byte more. Then as many, most met
# while busy: their log is shorter, but its space must hold every full response.
edge greatest 65536 4098 183192 'tries 8 8 8 8 8 8 8 8 8 8 8 8 8 8 8 8 8' 'fuses 00'
edge byte-more 65537 1 10 'refused 1'
edge record-more 65536 1 10 'refused 4'
edge log-byte-more 65536 1 11 'refused 10'
edge busy-greatest 65536 4098 170967 'tries 8 8 8 8 8 8 8 8 8 8 8 8 8 8 8 8 8' 'fuses 07'
edge busy-log-byte-more 65536 1 11 'refused 10'
# No listing is longer: a log byte gives most text, three bytes, within a response, and a zone byte gives none, so 484 records that
# fill the log by configuration reads give the most. A test of the second implementation tries every number of records and zone reads.
edge longest-listing 3649 486 188988 'tries 8 8 8 8 8 8 8 8 8 8 8 8 8 8 8 8 8' 'fuses 07'
# A write that is staged and not finished, of zone 7 and eight bytes; then a zone, a byte and a flag beyond.
edge ready 2198 3 54 'tries 8 8 8 8 8 8 8 8 8 8 8 8 8 8 8 8 8' 'fuses 07'
edge ready-zone-more 2198 1 11 'refused 16'
edge ready-length-more 2198 1 11 'refused 16'
edge flag-below-ready 2198 1 11 'refused 16'
echo "edges: the program and the second implementation agree at the edges and beyond them"
