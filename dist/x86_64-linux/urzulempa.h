/* Urzulempa: why a load of packages has no solution, from a file of 32-byte clause records.
 *
 * Any file, any room and any option get an answer. `number` is 0 when the text is whole, else a refusal:
 *   1 length    2 kind      3 shape       4 number or reference  5 origin  6 table full   (place: the record)
 *   7 Learnt in the core    8 graph full                                                  (place: the clause)
 *   9 a node is not reached from the root                                                 (place: the node)
 *  10 the next unit does not fit the room, or the list is too short                       (place: units written)
 *  11 an unmerged package comes to be opened below itself: the Rust would never end       (place: the solvable)
 *  12 option not 0 or 1, or edition not 1 or 2: tested before all others
 * Of urzulempa_explain_air alone, tested in this order after 9:
 *  15 a Lock in the core                                                                 (place: the first one's clause)
 *  16 more than 64 nodes                                                                 (place: 0)
 *  17 a cycle: a node leads back to itself, by whatever edges                            (place: the lowest node on one)
 * Of urzulempa_what_if and urzulempa_what_if_explain, tested in this order after 9:
 *   4 no such solvable or reason, or no node stands for the solvable                     (place: 0)
 *   8 the graph has no room for the exclusion, unresolved counted even where it has gone (place: the number of clauses)
 *  17 as above
 * Of a settings file alone:
 *  18 a version that the reader does not know                                            (place: the record)
 * Of urzulempa_season and urzulempa_join alone:
 *  14 a count of the report would pass 64 bits                                          (place: 0)
 * Of urzulempa_tgf_read, which reads a text and no record file, 3 and 10 alone:
 *   3 a line is bad or missing                                                            (place: its number, from 1)
 * Refusals 1 to 9, 12 and 15 to 18 leave the room and the list as they were; 10 and 11 leave the whole units written before the stop.
 * 14 leaves the report as it was.
 * `bytes` and `units` say what was written, `depth` how many packages are opened on the deepest branch of it.
 *
 * What is lent: each pointer holds for its length and is aligned for what it points to. What is lent to be written must overlap neither
 * the file, or the text or rows, nor anything else that is lent to the same call. Where a length is 0 its pointer may be NULL.
 * Stack: no call needs more than 128 KiB. No call allocates, and none calls anything but memcpy and memset.
 * Threads: no call keeps anything or has anything in common with another. Any number of them may run at once, on the same file too,
 * as long as nothing that one writes is lent to another.
 */
#ifndef URZULEMPA_H
#define URZULEMPA_H

/* The version of this header and its library; a smaller one may lack calls and refusals that are described here. */
#define URZULEMPA_VERSION_MAJOR 0
#define URZULEMPA_VERSION_MINOR 1
#define URZULEMPA_VERSION_PATCH 0
#define URZULEMPA_VERSION "0.1.0"

#include <stddef.h>
#include <stdint.h>

#ifdef __cplusplus
extern "C" {
#endif

typedef struct {
    uint64_t number, place, bytes, units, depth;
} urzulempa_answer;

/* kind: 0 root, 1 solvable, 2 unresolved, 3 excluded; number: of the solvable or the reason, else 0;
 * group: the node number of its group's first member, its own if it is in none;
 * clause: the core clause that first added the node, numbered among all clauses; 65,535 for the root and unresolved. */
typedef struct {
    uint16_t kind, number, group;
    uint8_t installable, missing;
    uint16_t clause;
} urzulempa_node;

/* bytes: the length of the repaired file; replaced: how many numbers the list got; dropped: how many bytes behind the last whole
 * record were left out. All three are 0 on a refusal. */
typedef struct {
    uint64_t number, place, bytes, replaced, dropped;
} urzulempa_salvaged;

/* What a settings file says: indent and simplify, each 0 or 1, and the edition, 1 or 2. All three are 0 on a refusal. */
typedef struct {
    uint64_t number, place, indent, simplify, edition;
} urzulempa_settings;

/* nodes, edges: how many a text of the wall display has; both are 0 on a refusal. */
typedef struct {
    uint64_t number, place, nodes, edges;
} urzulempa_tgf_counts;

/* The explanation; option 1 indents the top level, 0 does not. Packages that are alike share a line: up to six show all their versions,
 * more of them the first three, " | ... | " and the last, here and in the other explanations. */
urzulempa_answer urzulempa_explain(const uint8_t *file, size_t file_len, uint64_t option, uint8_t *room, size_t room_len);
/* A plain call: the same with option 1, the top level indented. Where a log or a feed needs it flat, name option 0 in urzulempa_explain. */
urzulempa_answer urzulempa_explain_plain(const uint8_t *file, size_t file_len, uint8_t *room, size_t room_len);
/* The explanation by the rules of an edition. In edition 1 it is that of urzulempa_explain. In edition 2 every package, merged or
 * not, is reported when first shown and skipped afterwards: 11 is never given, and with room the text is whole. */
urzulempa_answer urzulempa_explain_edition(const uint8_t *file, size_t file_len, uint64_t edition, uint64_t option, uint8_t *room, size_t room_len);
/* The explanation of a small load, for a server that is on air: that of urzulempa_explain where the core has no Lock and the graph has
 * at most 64 nodes, as urzulempa_nodes lists them, and no cycle; else 15, 16 or 17. 11 is never given: with room the text is whole. */
urzulempa_answer urzulempa_explain_air(const uint8_t *file, size_t file_len, uint64_t option, uint8_t *room, size_t room_len);
/* The graph in the DOT language; option 1 draws each merge group once. Each double quote of a text has a backslash before it; a backslash
 * stands as it is. */
urzulempa_answer urzulempa_graphviz(const uint8_t *file, size_t file_len, uint64_t option, uint8_t *room, size_t room_len);
/* Refusals 1 to 9, and no text. */
urzulempa_answer urzulempa_check(const uint8_t *file, size_t file_len);
/* One entry a node; 10 with place 0 and nothing written if the list is shorter than the nodes (at most 128). */
urzulempa_answer urzulempa_nodes(const uint8_t *file, size_t file_len, urzulempa_node *list, size_t list_len);
/* Five numbers an edge, the oldest edge first: source and target (numbers of nodes, as urzulempa_nodes lists them); kind, 0 requires,
 * 1 locked, 2 constrains, 3 forbid-multiple, 4 excluded; the number that it names, of the requirement, the locked solvable or the
 * version set, else 0; and the core clause that added it, numbered among all clauses, the first where several make one triple.
 * list_len counts numbers: 5 * 1,024 are enough. Numbers past the last edge stay; `bytes` is 10 times the edges.
 * 10 with place 0 and nothing written if the list is shorter than that. */
urzulempa_answer urzulempa_edges(const uint8_t *file, size_t file_len, uint16_t *list, size_t list_len);
/* What urzulempa_nodes would list if this solvable were excluded for this reason too: as if one more Excluded clause stood at the end of
 * the core, by way of a variable of that solvable. Nodes that are there keep their places; a reason that has no node yet gets one behind
 * them, whose clause is the number of clauses. Groups are worked out afresh. 10 with place 0 if the list is too short. Any refusal leaves
 * the list as it was. The graph must have no cycle. */
urzulempa_answer urzulempa_what_if(const uint8_t *file, size_t file_len, uint64_t solvable, uint64_t reason, urzulempa_node *list, size_t list_len);
/* The explanation then; option 1 indents the top level, and 12 is tested first. 11 is never given: with room the text is whole. */
urzulempa_answer urzulempa_what_if_explain(const uint8_t *file, size_t file_len, uint64_t solvable, uint64_t reason, uint64_t option, uint8_t *room, size_t room_len);
/* Repairs a file that was cut or damaged into the room. Bytes behind the last whole record are dropped; each clause that would get 3, 4
 * or 5, and each Learnt in the core, is replaced by kind 16 with flag 0 and all else zero, so that clause numbers hold. The list gets the
 * numbers of the replaced records, in order. What is repaired never gets 1 to 7. file_len bytes of room and 1,024 numbers are enough;
 * what lies behind those written stays.
 * 1 only for more than 65,536 bytes; 2, 6 (a clause past 1,024 first of all), and 3, 4 and 5 of kinds 1 to 8, stop the repair; then 10
 * with place 0 if the room or the list is too short. Any refusal leaves both as they were. */
urzulempa_salvaged urzulempa_salvage(const uint8_t *file, size_t file_len, uint8_t *room, size_t room_len, uint16_t *list, size_t list_len);
/* A settings file: records of 16 bytes, at most 4,096 bytes in all. Byte 0 is the record's version, byte 1 the setting, bytes 2 and 3
 * its content, the lower byte first, the rest 0. Version 1 has 1 indent and 2 simplify, each 0 or 1; version 2 has these and 3 the
 * edition, 1 or 2. The last record of a setting counts; where there is none, indent is 1, simplify 1, edition 1.
 * `version` is that of the reader, 1 or 2, else 12 before all others. 1 for a length that is no multiple of 16 or above 4,096; then
 * record by record 18 for a version that is 0 or above the reader's, and 3 for a setting or content that the record's version does not
 * know, or an unused byte that is not 0. A version 1 reader says edition 1. */
urzulempa_settings urzulempa_settings_read(const uint8_t *file, size_t file_len, uint64_t version);
/* Changes a setting of the file that the first `used` bytes of the room are: appends one record of the lowest version that knows it.
 * `bytes` is 16 then, `units` 1; no other byte of the room changes.
 * 12 as above; 1 if `used` is above room_len or 4,096 or no multiple of 16; the file's own 18 and 3; 3 with place 0 for a setting or
 * content that this version does not know; 10 with place 0 if the record would pass 4,096 bytes or the room. */
urzulempa_answer urzulempa_settings_set(uint8_t *room, size_t room_len, uint64_t used, uint64_t version, uint64_t setting, uint64_t content);
/* Writes a record file into the room from filled tables. They are lent as rows of 32 bytes in the record's own layout, in any order of
 * kinds. A row's number is its place among the rows of its kind, all clauses being one table; in kinds 1, 2, 3, 4, 6 and 7 field a is
 * not looked at, and gets that number. All other fields name rows by these numbers. The file has kinds 1 to 7 in ascending order, each
 * in its own, then the clauses in theirs, then kind 8 by variable. Done: `bytes` is its length, `units` its records, `depth` 0.
 * 1, place 0, if rows_len is no multiple of 32; then 2 to 6, whatever that file would get, with the place in that file (a row of an
 * unknown kind stands among the clauses); then 1, place 0, if it would pass 65,536 bytes; then 10, place 0, if it does not fit.
 * Nothing is written on any refusal, and what lies behind the file stays. */
urzulempa_answer urzulempa_write(const uint8_t *rows, size_t rows_len, uint8_t *room, size_t room_len);
/* The graph for the wall display, in Trivial Graph Format: a line per node with its number, a space and its label, a line with #, then
 * a line per edge with source, target and label, the oldest edge first. Labels are the texts of the graph text, merge groups are not
 * drawn together, and every line, a unit, ends in a newline: 10 leaves whole lines. 65,536 bytes of room are enough. */
urzulempa_answer urzulempa_tgf(const uint8_t *file, size_t file_len, uint8_t *room, size_t room_len);
/* Reads such a text: 1 to 128 nodes numbered from 0, up to 1,024 edges between them, decimals without leading zeros, one space behind
 * each, labels of 1 to 49 bytes from 32 to 126. The first list gets two numbers a node, where its label begins in the text and how long
 * it is; the second four an edge, source, target, and the same of its label. nodes_len and edges_len count numbers: 2 * 128 and
 * 4 * 1,024 are enough; numbers behind those written stay.
 * 3 with the number, from 1, of the first bad or missing line (an unfinished last line is bad); then 10 with place 0 if a list is too
 * short. Any refusal leaves both lists as they were. */
urzulempa_tgf_counts urzulempa_tgf_read(const uint8_t *text, size_t text_len, uint32_t *nodes, size_t nodes_len, uint32_t *edges, size_t edges_len);
/* A season's report over many files, in the order given, is 27 numbers that the host keeps: 0 how many files were done; 1 to 18 how many
 * got that refusal; totals of 19 nodes, 20 edges, 21 groups, 22 missing nodes, 23 lines; 24 the greatest depth, 25 the first file that had
 * it, from 0, and 26 whether 25 names one (0 no; 24 and 25 then read as 0). A report of no file is 27 zeros. report_len counts numbers.
 * Explains one file into the room as urzulempa_explain_edition does, and adds it behind the files of the report. A file that gets 1 to 9
 * or 12 adds its refusal alone, any other its graph's counts, the lines that it wrote and its depth, 0 among them. The answer is the file's
 * own; or 14 with all else 0, the report as it was and the room as the explanation leaves it, where a number of the report, or how many
 * files it is of, would pass 64 bits. First of all 10, place 0, if report_len is not 27: nothing is explained and nothing changed. */
urzulempa_answer urzulempa_season(uint64_t *report, size_t report_len, const uint8_t *file, size_t file_len, uint64_t edition, uint64_t option, uint8_t *room, size_t room_len);
/* Puts a second report behind the first: counts are added, and the second's file numbers follow the first's. A season cut into two and
 * joined gives the report of the whole. 10, place 0, if either has not 27 numbers; then 14 as above. Any refusal leaves the report as it
 * was. All but `number` is 0. The two must not overlap. */
urzulempa_answer urzulempa_join(uint64_t *report, size_t report_len, const uint64_t *second, size_t second_len);

#ifdef __cplusplus
}
#endif

#endif
