/* The SIMP lab from C. Link with libsimp.a, which `tools/staticlib simp` makes.
 *
 * Every function returns 0 where it accepts, or the number of the question that it answers with no:
 *
 *    0  accepted
 *    1  a lent length, or the part of the disk, is not one that the function takes
 *    2  a line of assembly text has more than 500 bytes, or a byte that is no blank (space, tab, CR) and not from 33 to 126
 *    3  a line has none of the forms of assembly text
 *    4  an op or a register is unknown
 *    5  a number is out of range: an immediate runs from -2048 to 2047 in decimal and to 4095 in hexadecimal or binary, a .word address from 0 to
 *       4095, its data from -2^31 to 2^32 - 1
 *    6  a label is defined on an earlier line
 *    7  a label that is used is defined on no line
 *    8  no address is left (above 4095), or the label is not among the first 1,024
 *    9  a line of a memory file has not the right hexadecimal digits
 *   10  no word is left in the memory for this line
 *   11  a line of an irq2 file is no cycle: 1 to 13 decimal digits, below 2^40 - 1
 *   12  the irq2 cycles are not strictly rising
 *   13  the record is not sound; of a saved record of 94 bytes the five bits at its end are asked too: they are to be 0
 *   14  the saved record is not of its length's edition: 2 in 94 bytes, 1 in 91
 *   15  the text does not fit the lent bytes
 *   16  a word has an opcode above 21
 *   17  a line of Intel HEX has a wrong form, digit or checksum, or is an end record with data or with text after it
 *   18  a record of Intel HEX is of another type than 00 and 01, or the end record is missing (the line after the last)
 *   19  a record of Intel HEX has a byte past the memory, or a first address that is not above the last byte named before it
 *   20  the saved record is of edition 1 and was saved while the disk was busy
 *
 * A function that refuses leaves every lent memory as it was; simp_load and simp_run say what becomes of the record and of the report then. A place
 * and a count are written in both cases: `place` is the line, from 1, or the listed word, from 0, that is refused, and 0 where it is neither; a count is 0
 * where the function refuses.
 *
 * A memory is lent as a pointer, aligned for its type, and its count of elements. No pointer may be null, even where the count is 0, and no two
 * memories that are lent to one call may overlap.
 *
 * The memories: an instruction image is 4,096 words, of which the low 48 bits are read; a data memory 4,096 words; a disk 16,384 words, which are
 * 128 sectors of 128; a frame 65,536 bytes.
 *
 * A record is 40 numbers: status, handler flag, PC, age, left, sector, buffer, R3 to R15, I/O registers 0 to 17, 20, 21. 40 zeros are the fresh record.
 * Sector and buffer are those of the disk command at work: at most 127 and at most 3968 while the disk is busy (left is above 0), both 0 while it is free.
 * A number that is too wide for its field makes the record unsound.
 *
 * What changed with the slow disk, for a caller who lent 38 numbers and 91 bytes: lend 40 and 94. record[5] and record[6] are sector and buffer; R3 has
 * moved from record[5] to record[7], I/O register 0 from record[18] to record[20]. A disk command moves its 128 words one by one, a word every 8 cycles, and
 * no longer all at once: what is read is all there, and what is written may be changed, when diskstatus is 0 again. A record that was saved before, in 91
 * bytes, is still read where its disk was free, with sector and buffer 0; where its disk was busy it is refused, number 20, for it doesn't tell them.
 */
#ifndef SIMP_H
#define SIMP_H

#include <stddef.h>
#include <stdint.h>

#ifdef __cplusplus
extern "C" {
#endif

/* Reads an instruction file, 12 hexadecimal digits a line, into an image of 4,096 words; words without a line become 0. Writes the image and `place`.
 * Returns 0, 1, 9 or 10. */
uint32_t simp_read_image(const uint8_t *text, size_t text_len, uint64_t *image, size_t image_len, uint64_t *place);

/* Reads a file of data, 8 hexadecimal digits a line, into a data memory of 4,096 words; words without a line become 0. Writes the memory and `place`.
 * Returns 0, 1, 9 or 10. */
uint32_t simp_read_data(const uint8_t *text, size_t text_len, uint32_t *memory, size_t memory_len, uint64_t *place);

/* Reads a file of disk words, 8 hexadecimal digits a line, into a part of the disk: 1 to 128 whole sectors, so 128 to 16,384 words and a multiple of
 * 128; words without a line become 0. Writes the part and `place`. Returns 0, 1, 9 or 10. */
uint32_t simp_read_disk(const uint8_t *text, size_t text_len, uint32_t *part, size_t part_len, uint64_t *place);

/* Reads a file of the frame, 2 hexadecimal digits a line, into a frame of 65,536 bytes; bytes without a line become 0. Writes the frame and `place`.
 * Returns 0, 1, 9 or 10. */
uint32_t simp_read_frame(const uint8_t *text, size_t text_len, uint8_t *frame, size_t frame_len, uint64_t *place);

/* Reads an irq2 file, one decimal cycle a line, into the front of a list of any length. Writes as many cycles as there are lines, `count`, which is how
 * many, and `place`; the list after them is left as it was. Returns 0, 10, 11 or 12. */
uint32_t simp_read_irq2(const uint8_t *text, size_t text_len, uint64_t *cycles, size_t cycles_len, uint64_t *count, uint64_t *place);

/* Writes an image of 4,096 words as text, the low 48 bits of each word as 12 hexadecimal digits and an LF: 53,248 bytes at the front of `text`, which
 * may be longer. Writes these and `count`, which is how many. Returns 0, 1 or 15. */
uint32_t simp_write_image(const uint64_t *image, size_t image_len, uint8_t *text, size_t text_len, uint64_t *count);

/* Writes a data memory of 4,096 words as text, 8 hexadecimal digits and an LF for each word: 36,864 bytes at the front of `text`, which may be longer.
 * Writes these and `count`, which is how many. Returns 0, 1 or 15. */
uint32_t simp_write_data(const uint32_t *memory, size_t memory_len, uint8_t *text, size_t text_len, uint64_t *count);

/* Writes so many sectors, at least one, of a disk of 16,384 words, from sector `first` on, as text, 8 hexadecimal digits and an LF for each word: 1,152
 * bytes a sector at the front of `text`, which may be longer. Writes these and `count`, which is how many. Returns 0, 1 or 15. */
uint32_t simp_write_disk(const uint32_t *disk, size_t disk_len, uint64_t first, uint64_t sectors, uint8_t *text, size_t text_len, uint64_t *count);

/* Writes a frame of 65,536 bytes as text, 2 hexadecimal digits and an LF for each byte: 196,608 bytes at the front of `text`, which may be longer.
 * Writes these and `count`, which is how many. Returns 0, 1 or 15. */
uint32_t simp_write_frame(const uint8_t *frame, size_t frame_len, uint8_t *text, size_t text_len, uint64_t *count);

/* Reads Intel HEX into a data memory of 4,096 words. Word n is bytes 4n to 4n+3, most significant first. Each line is a record of type 00 or, the last
 * one, of type 01; digits of either case; a line ends in LF or CR LF, the last one also in CR or in nothing. A record with data begins above the last byte
 * named before it; bytes that no record names become 0. Writes the memory and `place`. Returns 0, 1, 17, 18 or 19. It needs about 66 KB of stack. */
uint32_t simp_read_hex_data(const uint8_t *text, size_t text_len, uint32_t *memory, size_t memory_len, uint64_t *place);

/* Reads Intel HEX into a disk of 16,384 words, 65,536 bytes, in the same way. Writes the disk and `place`. Returns 0, 1, 17, 18 or 19. */
uint32_t simp_read_hex_disk(const uint8_t *text, size_t text_len, uint32_t *disk, size_t disk_len, uint64_t *place);

/* Writes a data memory of 4,096 words as Intel HEX: a record of 16 bytes for each four words, in capitals, then `:00000001FF`, an LF after each line:
 * 45,068 bytes at the front of `text`, which may be longer. Writes these and `count`, which is how many. Returns 0, 1 or 15. */
uint32_t simp_write_hex_data(const uint32_t *memory, size_t memory_len, uint8_t *text, size_t text_len, uint64_t *count);

/* Writes a disk of 16,384 words as Intel HEX in the same way: 180,236 bytes. Returns 0, 1 or 15. */
uint32_t simp_write_hex_disk(const uint32_t *disk, size_t disk_len, uint8_t *text, size_t text_len, uint64_t *count);

/* Assembles a text of at most 262,144 bytes into an image of 4,096 words and a data memory of 4,096 words; what the text does not set becomes 0.
 * Writes the image, the memory and `place`. Returns 0 to 8. It needs about 1.5 MB of stack. */
uint32_t simp_assemble(const uint8_t *source, size_t source_len, uint64_t *image, size_t image_len, uint32_t *memory, size_t memory_len, uint64_t *place);

/* Lists at most 4,096 instruction words as assembly text, a line for each, at the front of `text`, which may be longer. Writes these bytes, `count`,
 * which is how many, and `place`. Returns 0, 1, 15 or 16. */
uint32_t simp_list(const uint64_t *words, size_t words_len, uint8_t *text, size_t text_len, uint64_t *count, uint64_t *place);

/* Saves a record, 40 numbers, in 94 bytes, edition 2. Writes the bytes. Returns 0, 1 or 13. */
uint32_t simp_save(const uint64_t *record, size_t record_len, uint8_t *bytes, size_t bytes_len);

/* Reads a saved record of 94 bytes, edition 2, or of 91, edition 1, into the 40 numbers of a record. It asks 1, 14, 13 and 20 in this order. Writes the
 * numbers: where it refuses, 40 zeros, the fresh record, unless there are not 40 of them. Returns 0, 1, 13, 14 or 20. */
uint32_t simp_load(const uint8_t *bytes, size_t bytes_len, uint64_t *record, size_t record_len);

/* Runs the machine of a record, 40 numbers, on an image of 4,096 words, a data memory of 4,096 words, a disk of 16,384 words and a frame of 65,536 bytes,
 * for at most `budget` cycles. `irq2` has the cycles, strictly rising, at which irq2status rises; it may have any length, and so may `log`. Writes the
 * record, the memory, the disk, the frame, the front of `log` and `report`, which is 3 numbers: cycles made, log bytes written, and the reason:
 *
 *    0  the budget is spent
 *    1  the machine has stopped: its status is not 0
 *    2  the lines of the next cycle don't fit the rest of the log
 *    3  the machine is at the cycle limit, age 2^40 - 1
 *
 * Where it refuses, the record is left as it was and the report is 0 0 0, unless there are not 3 numbers of it. Returns 0, 1, 12 or 13. */
uint32_t simp_run(uint64_t *record, size_t record_len, const uint64_t *image, size_t image_len, uint32_t *memory, size_t memory_len,
                  uint32_t *disk, size_t disk_len, uint8_t *frame, size_t frame_len, const uint64_t *irq2, size_t irq2_len,
                  uint64_t budget, uint8_t *log, size_t log_len, uint64_t *report, size_t report_len);

#ifdef __cplusplus
}
#endif

#endif
