/* The dated curve book of the euro and of two smaller markets, replayed from a journal of calls.
 *
 * A journal is any bytes, read as records one after another:
 *   0x50, a length in 2 bytes, then a sheet of that many bytes: a post
 *   0x4D, a month in 2 bytes: a turn of the told month
 *   0x4C, a year in 1 byte: a look-up
 *   0x57, without a body: a withdrawal
 * Numbers have the high byte first. Reading stops at an unknown kind or a cut body, so every journal means some list of
 * calls, which is run from a fresh book. Nothing is kept between two of these calls.
 *
 * The book is made with an age limit in months, age_limit: any number, of which one above 2,399 makes a book with 2,399. A
 * curve that is older than the limit is turned away with 16 and not shown. The book still holds it: posts, turns and
 * withdrawals are answered as with any other limit.
 *
 * A sheet may start with a profile record (0x08 and a profile byte), which names its market: 1 is the euro, also
 * without the record, with quotes up to 50 years and a smoothing year of 20; 2 has quotes 1 to 10 and smooths from
 * 10; 3 has 1 to 10, 12 and 15 and smooths from 15. Profiles 2 and 3 carry one volume, that of the smoothing year.
 * Every other profile byte is 19, and a lone 0x08 is 1. A sheet of the euro has 109, 112 or 115 bytes, and 2 more
 * with the record: it may end with a record for the phase-in (0x06, 3 bytes), one for the volatility adjustment
 * (0x07, 3 bytes), or both in this order. One of profile 2 has 59 bytes, one of profile 3 has 67, both with the
 * record, and 3 more with one for the phase-in, the rate of which is the smoothing year's; they take no adjustment.
 * With an adjustment, be it 0, a post works two curves, the plain one and the adjusted one, and is turned down as a
 * whole where either fails. The book holds one sheet's curves at a time, whichever market they are of. Look-ups and
 * pages name their curve by kind: the adjusted one where bit 0 is set, else the plain one. A look-up also names what
 * it wants of the year by kind: where bit 1 is set the sum of years 1 to that year, as an annuity of one a year has
 * it, else the year's factor; a page ignores bit 1. All other bits are ignored. A look-up in a journal is of the
 * plain curve's factor.
 *
 * The book holds for each of its curves, ready for look-ups, the sum of the lows and the sum of the highs of years 1 to t, for
 * every year t; each accepted post and withdrawal sets them with the curve.
 *
 * A block of policies is a lent list of cash flows, each a year and whole cents, of which equal years may repeat. It is valued on
 * the plain curve, whatever adjustment the sheet has: the sum of cents * factor / 1,000,000,000 over all entries, rounded once at
 * the end, lows down and highs up. No record of a journal values a block.
 *
 * The shift that meets a target is the rate move at which a block costs no more than a given amount. It is worked from a sheet, a
 * list and a target in cents alone: no journal is read and no book is consulted, so that no month is too late or too early. It is
 * the smallest whole number from -500 to 500 which, added to every quote of the sheet, those that a volume of 0 drops too, makes a
 * sheet that passes 1 to 4 and 7 to 10, with an adjustment on both curves, and on whose plain curve the block's high is at most the
 * target. Nothing else of the sheet moves. The sheet as it is must pass 1 to 4 and may fail 7 to 10. As rates rise sheets may fail
 * and pass again and a block may cost more, so shifts above the smallest need not meet the target; up to 1,001 sheets are worked.
 *
 * A withdrawal takes back the latest accepted post that is not withdrawn: both curves and their month are again what stood
 * before it, be it none, and the told month remains. Up to three posts can be taken back, one after another; a post where three
 * can be forgets only the oldest way back. Where no post is left to withdraw the answer is 18.
 *
 * This is the interface from U12 on, as it was: only, there is one function more, tuyqorem_shift, and 23 is a new answer, which
 * no other function gives. No function has changed for it, and no journal is read otherwise. From U11 on there is
 * tuyqorem_value_after, and 20 to 22 are answers, which only it and tuyqorem_shift give; the place of a 21 or 22 is an entry of the
 * list, up to 1,000. No function had changed for it. From U10 on a sheet may start with a profile record
 * (0x08), by which it was turned down on 1 or 2 before, 19 is an answer, and places of records count that record where
 * it stands; no function has changed for it, and sheets that start with another byte are answered as they were. From
 * U9 on, where rates, an ultimate rate or an adjustment of 0 make a logarithm or a growth known, bands are narrower,
 * and a post may be accepted that was turned down on 8 or 10. A sheet that passed passes. From the annuity sums (U8)
 * on bit 1 of a look-up's kind, ignored before, asks for the sum; no function has changed for it, and no record of a
 * journal asks for one. From U7 on a journal's 0x57, an unknown kind before, is a withdrawal; no function has changed
 * for it. From U6 on tuyqorem_look_after and tuyqorem_page_after have the parameter kind, and had not; a look-up's
 * reply has 28 bytes, and had 12 before U3. So a program is compiled with the header of the library that it is linked
 * with. A program leaves the bits of kind that have no meaning at 0, as bit 1 was to be left before. From U5 on a
 * sheet's volume of 0 at 25, 30, 40 or 50 years drops the quote of that maturity; no function has changed for it.
 *
 * It is proved of tuyqorem_look_after and tuyqorem_page_after, for every age limit, every journal and every kind: no curve is
 * found exactly when no post of the journal is accepted and not withdrawn or, for the adjusted one, when the last such sheet has
 * no adjustment; a curve older than the limit answers 16; otherwise month and age are those of the last accepted post not
 * withdrawn and the last accepted turn, and each band is within that sheet's limit and holds the true factor of every order, on
 * the curve that is named. A sum's ends are the sums of the bands' lows and of their highs, and the true curve's sum of every
 * order lies between them; the limit is that of the factors, and a sum's ends may be further apart. A look-up's rates are the
 * largest and the smallest of their rule (docs/SPECIFICATION.md, 7.1) for the year's factor, whichever is wanted, and the true
 * curve's own rate of every order lies between them; a look-up answers 17 exactly when there is no high rate.
 *
 * It is proved of tuyqorem_value_after, for every age limit, every journal and every list: no curve is found exactly when no post
 * of the journal is accepted and not withdrawn; a curve older than the limit answers 16; otherwise a list without a ground of its
 * own is valued, month and age are those of a look-up, and the true curve's value of every order, worked from the last accepted
 * post not withdrawn, lies between low and high.
 *
 * It is proved of tuyqorem_shift, for every sheet's bytes, every list and every target: where no ground is against the sheet as it
 * is or against the list, the answer is the smallest shift from -500 to 500 for which the shifted sheet passes 1 to 4 and 7 to 10
 * and the block's high on its plain curve is at most the target, and 23 exactly when there is none.
 *
 * It is proved of tuyqorem_answer_after, for every age limit, every journal and every call: the answer is exactly the one
 * that the definitions give to that call on the book of the journal; a withdrawal is answered 18 exactly when the journal's
 * depth is 0, to which an accepted post adds 1, up to 3, and from which an accepted withdrawal takes 1.
 *
 * A buffer may overlap neither the journal, nor the sheet, nor the cash flows.
 */
#ifndef TUYQOREM_H
#define TUYQOREM_H

#include <stddef.h>
#include <stdint.h>

#ifdef __cplusplus
extern "C" {
#endif

/* The band of a year, or of the sum of years 1 to it, and the year's zero rates after the journal's calls, on the curve that
 * kind names. Returns 0 and writes 28 bytes to out: low (8), high (8), sheet month (2), age in months (2), low rate (4), high
 * rate (4), high byte first. Low and high are those of the factor or, where bit 1 of kind is set, of the sum; the other bytes are
 * the same for both. Factors and sums are in billionths, a sum being at most 300,000,000,000, which does not fit in 4 bytes; a
 * rate is in hundred-thousandths of one, 3,000 being 3%, in two's complement, from -50,000 to 100,000. The bytes of out past them
 * are kept. Otherwise out is left as it was and the answer is, tried in this order whichever is wanted, 13 (the year is not 1 to
 * 150), 14 (no curve, or the adjusted one is named and the sheet had no adjustment), 16 (the curve is older than the age limit),
 * 17 (no high rate up to 100,000 exists for the year's factor) or 15 (out has fewer than 28 bytes). */
uint64_t tuyqorem_look_after(uint64_t age_limit, const uint8_t *calls, size_t calls_len, uint64_t kind, uint64_t year,
                             uint8_t *out, size_t out_len);

/* The page of the curve that kind names after the journal's calls. Returns 0 and writes 1,505 bytes to out: 0x48, sheet month
 * (2), age (2); then for years 1 to 150 0x59, year (1), low (4), high (4), which are the factor's whatever bit 1 of kind is. The
 * bytes of out past them are kept. Otherwise out is left as it was and the answer is, tried in this order, 14 (no curve, or the
 * adjusted one is named and the sheet had no adjustment), 16 (the curve is older than the age limit) or 15 (out has fewer than
 * 1,505 bytes). */
uint64_t tuyqorem_page_after(uint64_t age_limit, const uint8_t *calls, size_t calls_len, uint64_t kind, uint8_t *out,
                             size_t out_len);

/* The answer that one more call gets after the journal's calls: for programs that keep a journal and must say why a sheet
 * was turned down. The call is the first record of call, written as in a journal; the bytes past it are ignored. Returns
 * 0 where it is accepted. Otherwise the answer is number + 256 * place: the number, 1 to 14 or 16 to 19, of the first ground that
 * applies (docs/SPECIFICATION.md, section 9), and the record, year or maturity that it names, 0 where it names none; or
 * 255, where call starts with no whole record: it is empty, its kind is unknown or its body is cut. */
uint64_t tuyqorem_answer_after(uint64_t age_limit, const uint8_t *calls, size_t calls_len, const uint8_t *call,
                               size_t call_len);

/* The value of a block of policies on the plain curve after the journal's calls. The cash flows are flows_len numbers, year and
 * cents in turn, so that a list of n entries has 2 * n numbers; an odd count is no list. Returns 0 and writes 20 bytes to out: low
 * (8), high (8), sheet month (2), age in months (2), high byte first. Low and high are in whole cents, at most 2,000,000,000,000,
 * which does not fit in 4 bytes. The bytes of out past them are kept. Otherwise out is left as it was and the answer is number +
 * 256 * place, the number being, tried in this order, 14 (no curve), 16 (the curve is older than the age limit), 20 (no entry, more
 * than 1,000 entries, or an odd count), then entry by entry 21 (the year is not 1 to 150) before 22 (the cents are above
 * 1,000,000,000), and after all entries 15 (out has fewer than 20 bytes); the place is the entry, from 1 to 1,000, of 21 and 22,
 * else 0. A year without a high rate is valued: 17 is no answer here. */
uint64_t tuyqorem_value_after(uint64_t age_limit, const uint8_t *calls, size_t calls_len, const uint64_t *flows,
                              size_t flows_len, uint8_t *out, size_t out_len);

/* The smallest shift of all quotes of a sheet at which a block of policies costs no more than target, which is in cents and any
 * number. The sheet is its bytes alone, without the kind and the length of a journal's record; the cash flows are those of
 * tuyqorem_value_after. Returns 0 and writes 2 bytes to out: the shift, -500 to 500, in hundred-thousandths of one, -12 being
 * 0.012% less, in two's complement, high byte first. The bytes of out past them are kept. Otherwise out is left as it was and the
 * answer is number + 256 * place, the number being, tried in this order, 19 and 1 to 4 as a post of the sheet has them, with their
 * places, 20 (no entry, more than 1,000 entries, or an odd count), then entry by entry 21 (the year is not 1 to 150) before 22 (the
 * cents are above 1,000,000,000), the place being the entry, from 1 to 1,000, then 23 (no shift meets the target), and last 15 (out
 * has fewer than 2 bytes); the place of 20, 23 and 15 is 0. A call may take as long as 1,001 posts. */
uint64_t tuyqorem_shift(const uint8_t *sheet, size_t sheet_len, const uint64_t *flows, size_t flows_len, uint64_t target,
                        uint8_t *out, size_t out_len);

#ifdef __cplusplus
}
#endif

#endif
