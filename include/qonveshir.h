/* qonveshir: matches rules (patterns with names, run names and complements)
   against states (records of one term), writes the state that a bound rule's
   template gives or the least state that satisfies a rule, and reads and writes
   sheets of rules or states. Formats, meaning and numbers are those of documents
   01 and 02.

   Link with target/staticlib/libqonveshir.a (x86-64 Linux), which
   `.ci/staticlib` builds. The calls keep no state, take no memory
   and may run in several threads at once.

   Every buffer is a pointer and its length in elements (not in bytes). A
   pointer must not be null, even where its length is 0, and the buffer that a
   call writes must not overlap one that it reads. Any contents are allowed:
   what breaks a rule is refused by its number. Where a call has several checks,
   the first that fails gives the number; they are listed in their order. */
#ifndef QONVESHIR_H
#define QONVESHIR_H

#include <stddef.h>
#include <stdint.h>

#ifdef __cplusplus
extern "C" {
#endif

/* The version of the library that this header belongs to. */
#define QONVESHIR_VERSION "0.2.0"

/* The numbers. 13, unread, belongs to the report program. */
enum {
  QONVESHIR_DONE = 0,       /* bound, written, accepted, bounded, changed or forced */
  QONVESHIR_TABLE = 1,      /* over 200 bytes, or a byte neither 0 to 8 nor 255 */
  QONVESHIR_SHORT = 2,      /* pattern or record ends before its last node */
  QONVESHIR_SPARE = 3,      /* bytes after the last node */
  QONVESHIR_CODE = 4,       /* a code not allowed there, or not in the table */
  QONVESHIR_DEEP = 5,       /* nesting over 32 */
  QONVESHIR_LONG = 6,       /* pattern, record, stored record or sheet over its limit, over 64
                               rules; an old form over a record's limit; a spliced list over 255
                               elements; the size of an example over its limit */
  QONVESHIR_STRAY = 7,      /* run name elsewhere than as a list's child */
  QONVESHIR_NARROW = 8,     /* answer buffer under 144 numbers */
  QONVESHIR_DIRECTORY = 9,  /* a sheet or a station breaks its rules, no such entry, or an edition
                               neither 1 nor 2 */
  QONVESHIR_NONE = 10,      /* no assignment satisfies the pattern, or none after the given answer;
                               of a cost, no bound; of a game, not forced */
  QONVESHIR_SPENT = 11,     /* the count is over the allowance */
  QONVESHIR_FULL = 12,      /* output too short for what is to be written, or records' bytes for a
                               station */
  QONVESHIR_CLASS = 14,     /* a class list breaks its rules, see below */
  QONVESHIR_UNKNOWN = 15,   /* the given run lengths belong to no answer, see below */
  QONVESHIR_UNSPLICED = 16, /* in edition 2, a list directly inside a list of its class */
  QONVESHIR_LENGTH = 17,    /* a stored list tells another length than that of its children */
  QONVESHIR_LOOSE = 18,     /* a template with a complement, or a name not free in the rule */
  QONVESHIR_OUTGROWN = 19,  /* what a template gives is over a record's limits */
  QONVESHIR_NO_NAME = 20,   /* no state is kept under that name */
  QONVESHIR_SHELF = 21,     /* eight states are kept, and the name is a ninth */
  QONVESHIR_NO_EXAMPLE = 22, /* no record up to that size satisfies the pattern */
  QONVESHIR_NOT_PLAIN = 23, /* a pattern that the plain tier does not take, see below */
  QONVESHIR_TURNS = 24      /* more than 6 turns */
};

/* Limits, in bytes; of a rule sheet in patterns, of nesting in nodes from the
   root to a node, both counted. A complement's child has the complement's own
   nesting, so a pattern may hold 255 complements in a row. */
#define QONVESHIR_TABLE_LIMIT 200
#define QONVESHIR_PATTERN_LIMIT 256
#define QONVESHIR_RECORD_LIMIT 4096
#define QONVESHIR_STORED_LIMIT 8192
#define QONVESHIR_SHEET_LIMIT 32768
#define QONVESHIR_RULES_LIMIT 64
#define QONVESHIR_NESTING_LIMIT 32
#define QONVESHIR_EXAMPLE_LIMIT 6

/* A station: the most states that it keeps, and the bytes that are lent for its
   records, QONVESHIR_RECORD_LIMIT for the current one and for each kept one. */
#define QONVESHIR_KEPT_LIMIT 8
#define QONVESHIR_STATION (QONVESHIR_RECORD_LIMIT * (1 + QONVESHIR_KEPT_LIMIT))

/* The most turns of a game, and what it shows as the index where the goal holds at
   the start, and for a pass. Rules are 0 to 63. */
#define QONVESHIR_TURNS_LIMIT 6
#define QONVESHIR_NO_MOVE 64
#define QONVESHIR_PASS 65

/* What the count of an edition 2 sheet has added. */
#define QONVESHIR_EDITION_MARK 32768

/* Numbers of names, ?0 to ?31, and of these and run names, @0 to @15. */
#define QONVESHIR_NAMES 32
#define QONVESHIR_VARIABLES 48
/* Numbers of an entry: offset and length of a name or run name, in the record's
   bytes, and the number of its terms. A name has one term. */
#define QONVESHIR_ENTRY 3
/* Numbers that an answer holds: the entries of ?0 to ?31, then of @0 to @15. */
#define QONVESHIR_ANSWER (QONVESHIR_ENTRY * QONVESHIR_VARIABLES)
/* Offset of a name or run name that is not free in the pattern; its length and
   its number of terms are 0. */
#define QONVESHIR_ABSENT 65535

/* An allowance that is never spent on a pattern without run names. */
#define QONVESHIR_AMPLE 256

/* number: 0 bound, written, accepted, bounded, changed or forced; else another of the numbers
   above.
   index: the rule shown or the entry at fault, else 0; of a game see there.
   count: bound, none, spent: the count or sum; written: the length written;
   bounded: the bound; else 0. */
typedef struct { uint32_t number; uint32_t index; uint64_t count; } qonveshir_outcome;

/* number: 0 bound, else another of the numbers above.
   length: that of the result in bytes; 0 unless bound.
   count: bound, none, spent: the count; else 0. */
typedef struct { uint32_t number; uint32_t length; uint64_t count; } qonveshir_written;

/* A station: how many states are kept; their names, in the order in which they
   came; and the lengths in bytes of the records, the current one's first, then
   those of the kept ones. Names and lengths past those in use are not read and
   stay as they are. Its records lie in a buffer beside it, see
   qonveshir_station_new. */
typedef struct {
  uint16_t kept;
  uint16_t names[QONVESHIR_KEPT_LIMIT];
  uint16_t lengths[1 + QONVESHIR_KEPT_LIMIT];
} qonveshir_station;

/* number: 0, or 6 or 9; offset and length are in the sheet's bytes, and both 0
   unless number is 0. */
typedef struct { uint32_t number; uint32_t offset; uint32_t length; } qonveshir_part;

/* The two forms of a call. The simple form has no class list, and is of edition
   1 unless a sheet tells another. The form `_in` is told its language: a class
   list, always, and the edition, where no sheet tells it. Only qonveshir_entry,
   which reads no table, has one form.

   The edition is 1 or 2. Any other number is refused with 9, before all other
   checks; index and count are 0. In edition 2 a list directly inside a list of
   the same symbol, up to class, means its elements in its place. A name in a
   list still stands for one element. Records and patterns of edition 2 must come
   already spliced: such a list in a list is refused with 16, at its node after
   7 and before the 2 for a missing number of children. A complement between the
   two is not "directly". The calls qonveshir_splice_record and
   qonveshir_splice_pattern splice what is of edition 1.

   A sheet tells its own edition: QONVESHIR_EDITION_MARK is added to the count of
   one of edition 2. Its entries are read in its edition, and so is the record
   that a rule sheet is tried on.

   A class list is as long as the table. Its entry for a symbol, the symbol's
   class, is the lowest symbol of the same meaning. Symbols of one class count as
   the same wherever a symbol or two parts are compared, and where a list stands
   in a list. A list's number of children is no symbol and is compared as it is.
   An answer shows what stands at each name's first place; answers that differ
   only within classes count as one. Refused with 14, which shows index 0 and
   count 0: another length (an empty list too, unless the table is empty), an
   entry above its own index, an entry that is not its own class, or one with
   another byte in the table than its symbol. With each symbol its own class,
   which is also the list for edition 2 without classes, a call of edition 1 does
   what its simple form does. */

/* Matches one pattern against one record. Bound (0) writes the first
   QONVESHIR_ANSWER numbers of the answer; what lies past them stays, and every
   other number leaves the whole answer as it was. Spent (11) shows the
   allowance as the count. Checks: 8, 1, the pattern, the record. */
qonveshir_outcome qonveshir_match(const uint8_t *table, size_t table_length,
                                  const uint8_t *pattern, size_t pattern_length,
                                  const uint8_t *record, size_t record_length,
                                  uint32_t allowance,
                                  uint16_t *answer, size_t answer_length);

/* The same in an edition, up to class. Checks: 9 of the edition, 8, 1, 14, the
   pattern, the record. */
qonveshir_outcome qonveshir_match_in(uint32_t edition,
                                     const uint8_t *table, size_t table_length,
                                     const uint8_t *classes, size_t classes_length,
                                     const uint8_t *pattern, size_t pattern_length,
                                     const uint8_t *record, size_t record_length,
                                     uint32_t allowance,
                                     uint16_t *answer, size_t answer_length);

/* Shows the answer after a given one, in the order of answers, or none (10)
   after the last. To list every answer, call qonveshir_match for the first,
   then this with the run lengths of each answer, until none: while no call is
   spent, each answer is shown once, in order (examples/match.c).

   The run lengths of an answer are in elements, not in bytes: one for each run
   name that is free in the pattern, in the order of the run names' first places
   outside complements, reading left to right, parents before children. Of two
   answers the first is the one with the smaller length where their lists first
   differ. An answer shows them: they are the third numbers of these run names.
   A pattern without free run names has one answer at most, whose list is empty.

   table, pattern, record: those for which the given answer was shown.
   given: the run lengths of the given answer.
   allowance: for this call alone.
   answer: as for qonveshir_match; it may hold the given answer, which is not read.

   Checks: 8, 1, the pattern, the record, 15 for another number of lengths than
   there are free run names. Then the given lengths are checked by the same
   search with each free run name trying its given length only, fitting or not;
   15 if that finds no answer. Then the search goes on after that answer.

   bound (0): the next answer, written as by qonveshir_match.
   none (10): the given answer is the last.
   spent (11): the check, or the check and the search after it, count more than
   the allowance, which is shown.
   unknown (15): another number of lengths, or lengths that belong to no answer;
   shows count 0.
   The count of bound and none is that of the check and the search after it
   together. The index is 0. All but bound leave the whole answer as it was. */
qonveshir_outcome qonveshir_next(const uint8_t *table, size_t table_length,
                                 const uint8_t *pattern, size_t pattern_length,
                                 const uint8_t *record, size_t record_length,
                                 const uint16_t *given, size_t given_length,
                                 uint32_t allowance,
                                 uint16_t *answer, size_t answer_length);

/* The same in an edition, up to class: those in which the given answer was shown.
   Checks: 9 of the edition, 8, 1, 14, the pattern, the record, 15. */
qonveshir_outcome qonveshir_next_in(uint32_t edition,
                                    const uint8_t *table, size_t table_length,
                                    const uint8_t *classes, size_t classes_length,
                                    const uint8_t *pattern, size_t pattern_length,
                                    const uint8_t *record, size_t record_length,
                                    const uint16_t *given, size_t given_length,
                                    uint32_t allowance,
                                    uint16_t *answer, size_t answer_length);

/* Matches one plain pattern against one record, without an allowance: it is
   never spent. A pattern is plain if it has no complement, no name or run name
   twice, and at most one run name in a list; any other is refused with 23.
   Nothing is tried twice, since a run's length follows from the numbers of
   children: a list whose number of elements can't come out fails at once.

   Number and answer are those of qonveshir_match wherever that is not spent;
   the answer is written as by it. The count is another: one for each pattern
   node set against a record node or run, up to and with the first that fails;
   at most the pattern's length in bytes.

   Checks: 8, 1, the pattern, 23, the record. 23 shows count 0. */
qonveshir_outcome qonveshir_match_plain(const uint8_t *table, size_t table_length,
                                        const uint8_t *pattern, size_t pattern_length,
                                        const uint8_t *record, size_t record_length,
                                        uint16_t *answer, size_t answer_length);

/* The same in an edition, up to class. Checks: 9 of the edition, 8, 1, 14, the
   pattern, 23, the record. */
qonveshir_outcome qonveshir_match_plain_in(uint32_t edition,
                                           const uint8_t *table, size_t table_length,
                                           const uint8_t *classes, size_t classes_length,
                                           const uint8_t *pattern, size_t pattern_length,
                                           const uint8_t *record, size_t record_length,
                                           uint16_t *answer, size_t answer_length);

/* Tries the rules of a sheet in order, each with the whole allowance, up to the
   first that is bound or spent, whose index is shown. The count is the sum so
   far; a spent rule adds the allowance to it. The answer is written as by
   qonveshir_match. Checks: 8, 1, 6 of the sheet, 9, 6 of 64 rules, each pattern
   (its index is shown), the record (index 0). */
qonveshir_outcome qonveshir_match_rules(const uint8_t *table, size_t table_length,
                                        const uint8_t *rules, size_t rules_length,
                                        const uint8_t *record, size_t record_length,
                                        uint32_t allowance,
                                        uint16_t *answer, size_t answer_length);

/* The same up to class. Checks: 8, 1, 14, 6 of the sheet, 9, 6 of 64 rules, each
   pattern (its index is shown), the record (index 0). */
qonveshir_outcome qonveshir_match_rules_in(const uint8_t *table, size_t table_length,
                                           const uint8_t *classes, size_t classes_length,
                                           const uint8_t *rules, size_t rules_length,
                                           const uint8_t *record, size_t record_length,
                                           uint32_t allowance,
                                           uint16_t *answer, size_t answer_length);

/* Writes a sheet of joined records, whose lengths are given, and shows the
   sheet's length as the count. Output past that stays; a refusal leaves all of
   it as it was. Checks: 1, 9 (a length 0 or a wrong sum), 6 of the sheet, each
   record (its index is shown), 12. */
qonveshir_outcome qonveshir_write_sheet(const uint8_t *table, size_t table_length,
                                        const uint8_t *records, size_t records_length,
                                        const uint16_t *lengths, size_t lengths_length,
                                        uint8_t *output, size_t output_length);

/* The same in an edition, which the sheet then tells, up to class. Checks: 9 of
   the edition, 1, 14, 9 (a length 0 or a wrong sum), 6 of the sheet, each record
   (its index is shown), 12. */
qonveshir_outcome qonveshir_write_sheet_in(uint32_t edition,
                                           const uint8_t *table, size_t table_length,
                                           const uint8_t *classes, size_t classes_length,
                                           const uint8_t *records, size_t records_length,
                                           const uint16_t *lengths, size_t lengths_length,
                                           uint8_t *output, size_t output_length);

/* Shows where an entry lies in a sheet, of either edition. Checks: 6 of the
   sheet, 9 of its directory, 9 of the index; the entry's contents are not read. */
qonveshir_part qonveshir_entry(const uint8_t *sheet, size_t sheet_length, uint32_t index);

/* Accepts a sheet of patterns. Checks: 1, 6 of the sheet, 9, 6 of 64 rules,
   each pattern (its index is shown). */
qonveshir_outcome qonveshir_check_rules(const uint8_t *table, size_t table_length,
                                        const uint8_t *sheet, size_t sheet_length);

/* The same up to class. Checks: 1, 14, 6 of the sheet, 9, 6 of 64 rules, each
   pattern (its index is shown). */
qonveshir_outcome qonveshir_check_rules_in(const uint8_t *table, size_t table_length,
                                           const uint8_t *classes, size_t classes_length,
                                           const uint8_t *sheet, size_t sheet_length);

/* Accepts a sheet of records. Checks: 1, 6 of the sheet, 9, each record (its
   index is shown). */
qonveshir_outcome qonveshir_check_states(const uint8_t *table, size_t table_length,
                                         const uint8_t *sheet, size_t sheet_length);

/* The same up to class. Checks: 1, 14, 6 of the sheet, 9, each record (its index
   is shown). */
qonveshir_outcome qonveshir_check_states_in(const uint8_t *table, size_t table_length,
                                            const uint8_t *classes, size_t classes_length,
                                            const uint8_t *sheet, size_t sheet_length);

/* Shows how much a pattern can cost at most. Bounded (0), with the number of the
   pattern's nodes as the count, if it has no run names: no match of it, in any
   edition, with classes or without, on any record, counts more, nor does the next answer; so
   this number is an allowance that is never spent on it, and so is
   QONVESHIR_AMPLE. A node is a name, a symbol or a complement, within
   complements too. None (10), with count 0, if it has run names, also if these
   stand within complements: then there is no such bound. Checks: 1, the pattern. */
qonveshir_outcome qonveshir_cost(const uint8_t *table, size_t table_length,
                                 const uint8_t *pattern, size_t pattern_length);

/* The same in an edition, up to class. Checks: 9 of the edition, 1, 14, the
   pattern. */
qonveshir_outcome qonveshir_cost_in(uint32_t edition,
                                    const uint8_t *table, size_t table_length,
                                    const uint8_t *classes, size_t classes_length,
                                    const uint8_t *pattern, size_t pattern_length);

/* Writes the stored form of a record, and shows its length as the count. In the
   stored form a list node's number of children is followed by the length in
   bytes of all its children in the stored form, two bytes, low byte first. It
   has at most QONVESHIR_STORED_LIMIT bytes, for every accepted record. Output
   past that stays; a refusal leaves all of it as it was. Checks: 1, the record,
   12. */
qonveshir_outcome qonveshir_store(const uint8_t *table, size_t table_length,
                                  const uint8_t *record, size_t record_length,
                                  uint8_t *output, size_t output_length);

/* The same in an edition, up to class. Checks: 9 of the edition, 1, 14, the
   record, 12. */
qonveshir_outcome qonveshir_store_in(uint32_t edition,
                                     const uint8_t *table, size_t table_length,
                                     const uint8_t *classes, size_t classes_length,
                                     const uint8_t *record, size_t record_length,
                                     uint8_t *output, size_t output_length);

/* Writes the old form of a stored record, and shows its length as the count;
   qonveshir_store of that gives the stored record again. Output past that stays;
   a refusal leaves all of it as it was. Checks: 1, 6 of the stored record, at
   each node 2, 4, 5, then 2 for a missing number of children or a missing byte
   of the length, the children, 17 if the length is not theirs; then 3, 6 if the
   old form is over QONVESHIR_RECORD_LIMIT bytes, 12. */
qonveshir_outcome qonveshir_restore(const uint8_t *table, size_t table_length,
                                    const uint8_t *stored, size_t stored_length,
                                    uint8_t *output, size_t output_length);

/* The same in an edition, up to class; qonveshir_store_in gives the stored record
   again. Checks: 9 of the edition, 1, 14, then as above, with 16 of a node after
   its 5. */
qonveshir_outcome qonveshir_restore_in(uint32_t edition,
                                       const uint8_t *table, size_t table_length,
                                       const uint8_t *classes, size_t classes_length,
                                       const uint8_t *stored, size_t stored_length,
                                       uint8_t *output, size_t output_length);

/* Splices an edition 1 record, and shows the length written as the count: in
   place of a list directly inside a list of the same symbol stand its elements.
   The outer list keeps its symbol. What is written has at most the record's
   length, is accepted in edition 2, and is not changed by splicing it again.
   Output past that stays; a refusal leaves all of it as it was. Checks: 1, the
   record, 6 if a spliced list has over 255 elements, 12. */
qonveshir_outcome qonveshir_splice_record(const uint8_t *table, size_t table_length,
                                          const uint8_t *record, size_t record_length,
                                          uint8_t *output, size_t output_length);

/* The same up to class: in place of a list directly inside a list of its class.
   Checks: 1, 14, the record, 6, 12. */
qonveshir_outcome qonveshir_splice_record_in(const uint8_t *table, size_t table_length,
                                             const uint8_t *classes, size_t classes_length,
                                             const uint8_t *record, size_t record_length,
                                             uint8_t *output, size_t output_length);

/* Splices an edition 1 pattern, as qonveshir_splice_record does a record. A
   list below a complement is not directly inside the list around that. Checks:
   1, the pattern, 6, 12. */
qonveshir_outcome qonveshir_splice_pattern(const uint8_t *table, size_t table_length,
                                           const uint8_t *pattern, size_t pattern_length,
                                           uint8_t *output, size_t output_length);

/* The same up to class. Checks: 1, 14, the pattern, 6, 12. */
qonveshir_outcome qonveshir_splice_pattern_in(const uint8_t *table, size_t table_length,
                                              const uint8_t *classes, size_t classes_length,
                                              const uint8_t *pattern, size_t pattern_length,
                                              uint8_t *output, size_t output_length);

/* Matches one pattern against one record and, if it is bound, writes the next
   record: the template with each name and run name replaced by what the first
   answer shows for it. A template is a pattern without complements whose names
   and run names are free in the pattern; any other is refused with 18.

   bound (0): the result is written and its length shown. It is an accepted
   record. Output past it stays.
   none (10), spent (11): as for qonveshir_match, whose number and count these
   are; bound has its count too.
   outgrown (19): the result is over QONVESHIR_RECORD_LIMIT bytes,
   QONVESHIR_NESTING_LIMIT or 255 elements of a list.
   full (12): the output is shorter than the result.
   Length 0 and an output as it was, with all but bound; count 0, with all but
   bound, none and spent.

   Checks: 1, the pattern, the template as a pattern, 18, the record; after the
   match 19, then 12. */
qonveshir_written qonveshir_apply(const uint8_t *table, size_t table_length,
                                  const uint8_t *pattern, size_t pattern_length,
                                  const uint8_t *template_, size_t template_length,
                                  const uint8_t *record, size_t record_length,
                                  uint32_t allowance,
                                  uint8_t *output, size_t output_length);

/* The same in an edition, up to class. In edition 2 the result is spliced: in
   place of a list directly inside a list of its class stand its elements, and
   the outer list keeps its symbol. 19 and 12 are then of the spliced result.
   Checks: 9 of the edition, 1, 14, the pattern, the template as a pattern, 18,
   the record; after the match 19, then 12. */
qonveshir_written qonveshir_apply_in(uint32_t edition,
                                     const uint8_t *table, size_t table_length,
                                     const uint8_t *classes, size_t classes_length,
                                     const uint8_t *pattern, size_t pattern_length,
                                     const uint8_t *template_, size_t template_length,
                                     const uint8_t *record, size_t record_length,
                                     uint32_t allowance,
                                     uint8_t *output, size_t output_length);

/* Shows what qonveshir_apply shows with an output of QONVESHIR_RECORD_LIMIT
   bytes, and writes nothing. */
qonveshir_written qonveshir_look(const uint8_t *table, size_t table_length,
                                 const uint8_t *pattern, size_t pattern_length,
                                 const uint8_t *template_, size_t template_length,
                                 const uint8_t *record, size_t record_length,
                                 uint32_t allowance);

/* The same of qonveshir_apply_in. */
qonveshir_written qonveshir_look_in(uint32_t edition,
                                    const uint8_t *table, size_t table_length,
                                    const uint8_t *classes, size_t classes_length,
                                    const uint8_t *pattern, size_t pattern_length,
                                    const uint8_t *template_, size_t template_length,
                                    const uint8_t *record, size_t record_length,
                                    uint32_t allowance);

/* Writes an example of a pattern: the accepted record of at most `size` bytes
   that satisfies it with the fewest bytes and, among those, the first by bytes.
   Records are tried in that order, each with the whole allowance.

   size: at most QONVESHIR_EXAMPLE_LIMIT; a larger one is refused with 6. With 0
   there is no example.

   bound (0): the record is written and its length shown. No accepted record that
   satisfies the pattern is shorter, or as long and smaller by bytes. The count is
   that of its own match. Output past it stays.
   spent (11): a record was tried whose match counts more than the allowance, which
   is shown, and none before it satisfies the pattern. A larger allowance may give
   an example or 22; what is not spent stays with every larger one.
   no example (22): no accepted record of at most `size` bytes satisfies the
   pattern.
   full (12): the output is shorter than the record. It never is with
   QONVESHIR_EXAMPLE_LIMIT bytes.
   Length 0 and an output as it was, with all but bound; count 0, with all but
   bound and spent.

   Most patterns take less than a millisecond. One that no small record satisfies
   may take seconds, if it is a list with very many symbols behind a name or a run
   name.

   Checks: 6 of the size, 1, the pattern; after all records 22, then 12. */
qonveshir_written qonveshir_example(const uint8_t *table, size_t table_length,
                                    const uint8_t *pattern, size_t pattern_length,
                                    uint32_t size, uint32_t allowance,
                                    uint8_t *output, size_t output_length);

/* The same in an edition, up to class. In edition 2 records are spliced ones.
   Checks: 9 of the edition, 6 of the size, 1, 14, the pattern; after all records
   22, then 12. */
qonveshir_written qonveshir_example_in(uint32_t edition,
                                       const uint8_t *table, size_t table_length,
                                       const uint8_t *classes, size_t classes_length,
                                       const uint8_t *pattern, size_t pattern_length,
                                       uint32_t size, uint32_t allowance,
                                       uint8_t *output, size_t output_length);

/* Makes a new station of a record: the record becomes the current one, and none
   is kept. What the station held before is not read.

   A station is the struct and the buffer of its records, lent to each call and
   changed there. The buffer has QONVESHIR_STATION bytes or more. Records lie
   QONVESHIR_RECORD_LIMIT bytes apart, the current one first, then the kept ones
   in the order in which their names came. A call writes the bytes of one record;
   all others stay as they were, and so does the whole station, its buffer too,
   after every number but 0. The station must not overlap another buffer. After any
   calls of qonveshir_station_keep, qonveshir_station_return and
   qonveshir_station_apply, with nothing else writing to the station, the current
   record and the kept ones are what the calls with number 0 say.

   Index and count are 0. Checks: 12 for under QONVESHIR_STATION bytes, 1, the
   record. */
qonveshir_outcome qonveshir_station_new(const uint8_t *table, size_t table_length,
                                        const uint8_t *record, size_t record_length,
                                        qonveshir_station *station,
                                        uint8_t *records, size_t records_length);

/* The same in an edition, up to class. Checks: 9 of the edition, 12, 1, 14, the
   record. */
qonveshir_outcome qonveshir_station_new_in(uint32_t edition,
                                           const uint8_t *table, size_t table_length,
                                           const uint8_t *classes, size_t classes_length,
                                           const uint8_t *record, size_t record_length,
                                           qonveshir_station *station,
                                           uint8_t *records, size_t records_length);

/* Keeps the current record under a name, in place of what was kept under it; a
   new name comes last. Index and count are 0. Checks: 12 for under
   QONVESHIR_STATION bytes, 9 for over QONVESHIR_KEPT_LIMIT kept, for a length in
   use that is not 1 to QONVESHIR_RECORD_LIMIT or for a name in use twice, 21 for
   a ninth name. */
qonveshir_outcome qonveshir_station_keep(uint16_t name,
                                         qonveshir_station *station,
                                         uint8_t *records, size_t records_length);

/* Makes the record that is kept under a name the current one; it stays kept.
   Index and count are 0. Checks: 12 and 9 as for qonveshir_station_keep, 20 for a
   name that is not kept. */
qonveshir_outcome qonveshir_station_return(uint16_t name,
                                           qonveshir_station *station,
                                           uint8_t *records, size_t records_length);

/* Applies a pattern and its template to the current record, as qonveshir_apply
   does with an output of QONVESHIR_RECORD_LIMIT bytes, and makes the result the
   current record. Number, length and count are those of that call. With every
   number but 0, none (10) and spent (11) too, the station stays as it was.
   Checks: 12 and 9 as for qonveshir_station_keep, 1, the pattern, the template as
   a pattern, 18, the record; after the match 19. */
qonveshir_written qonveshir_station_apply(const uint8_t *table, size_t table_length,
                                          const uint8_t *pattern, size_t pattern_length,
                                          const uint8_t *template_, size_t template_length,
                                          uint32_t allowance,
                                          qonveshir_station *station,
                                          uint8_t *records, size_t records_length);

/* The same in an edition, up to class, as qonveshir_apply_in. Checks: 9 of the
   edition, 12 and 9 as for qonveshir_station_keep, 1, 14, the pattern, the
   template as a pattern, 18, the record; after the match 19. */
qonveshir_written qonveshir_station_apply_in(uint32_t edition,
                                             const uint8_t *table, size_t table_length,
                                             const uint8_t *classes, size_t classes_length,
                                             const uint8_t *pattern, size_t pattern_length,
                                             const uint8_t *template_, size_t template_length,
                                             uint32_t allowance,
                                             qonveshir_station *station,
                                             uint8_t *records, size_t records_length);

/* Shows what the loader can bring about in so many turns. Loader and sender move
   in turn, and the loader begins. A move applies one of one's own rules that is
   bound, with its template, as qonveshir_apply does; one whose result is outgrown
   is no move. Whoever has no move passes; a pass is a turn too. Each side has a
   rule sheet and a sheet of as many templates, that of a rule under its index.

   turns: 0 to QONVESHIR_TURNS_LIMIT, passes counted.
   goal: a pattern.
   record: the starting state.
   allowance: for each search, the whole.

   forced (0): the loader has moves such that, however the sender moves, some state
   reached, the starting one included, satisfies the goal. The index is that of
   the loader's lowest first rule that still forces it, or QONVESHIR_NO_MOVE if the
   start satisfies the goal, or QONVESHIR_PASS for a pass. The count is 0.
   none (10): it has no such moves. Index and count are 0.
   spent (11): a search counts over the allowance. The index is 0, the count the
   allowance. States are searched depth first: the goal is tried at a state before
   its moves, a rule is matched and its move followed to the end before the next
   rule is matched, and a state is left at the first move that settles it, for the
   loader one that forces the goal, for the sender one that doesn't. The first
   spent search in this order ends the call.

   Checks: 24 for more turns, 1; of the loader's rules 6 of the sheet, 9, 6 of 64
   rules, each pattern (its index is shown); of the loader's templates 6 of the
   sheet, 9, 9 for another number than that of the rules, each as a pattern, then
   18 (its index is shown); the sender's rules and templates likewise; the goal,
   the record (index 0). The loader's rule sheet tells the edition of the goal and
   the record, and a later sheet of another edition is refused with 9. */
qonveshir_outcome qonveshir_play(uint32_t turns,
                                 const uint8_t *table, size_t table_length,
                                 const uint8_t *loader_rules, size_t loader_rules_length,
                                 const uint8_t *loader_templates, size_t loader_templates_length,
                                 const uint8_t *sender_rules, size_t sender_rules_length,
                                 const uint8_t *sender_templates, size_t sender_templates_length,
                                 const uint8_t *goal, size_t goal_length,
                                 const uint8_t *record, size_t record_length,
                                 uint32_t allowance);

/* The same up to class. Checks: 24, 1, 14, then as above. */
qonveshir_outcome qonveshir_play_in(uint32_t turns,
                                    const uint8_t *table, size_t table_length,
                                    const uint8_t *classes, size_t classes_length,
                                    const uint8_t *loader_rules, size_t loader_rules_length,
                                    const uint8_t *loader_templates, size_t loader_templates_length,
                                    const uint8_t *sender_rules, size_t sender_rules_length,
                                    const uint8_t *sender_templates, size_t sender_templates_length,
                                    const uint8_t *goal, size_t goal_length,
                                    const uint8_t *record, size_t record_length,
                                    uint32_t allowance);

#ifdef __cplusplus
}
#endif

#endif
