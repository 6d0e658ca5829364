"""`help`: what each command takes, prints and means."""

from __future__ import annotations

import os

from front import streams

TEXT = """\
usage: ./tailfiddle predict MU RX RY RZ VX VY VZ DT LIMIT   the state after DT seconds
       ./tailfiddle turn MU RX RY RZ VX VY VZ A             the state through an angle of A radians
       ./tailfiddle transfer MU R1 R2 DT LIMIT short|long   the velocity from R1 to R2 in DT seconds
       ./tailfiddle root NUMBER...                          the number nearest each square root
       ./tailfiddle digits NUMBER                           how that root is found, digit by digit
       ./tailfiddle series Z...                             the sums C2 and C3 at each Z
       ./tailfiddle predict|turn|transfer -                 the same for inputs on standard input
       ./tailfiddle root|digits|series -                    the same for numbers on standard input
       ./tailfiddle write PROBLEMS OUT                      a deck of cards from a text file
       ./tailfiddle check FILE                              the verdicts on a deck of cards
       ./tailfiddle show FILE                               the cards of a deck, in decimals
       ./tailfiddle show --problems FILE                    its problems, as write takes them
       ./tailfiddle check|show -                            the same for a deck on standard input
       ./tailfiddle why NUMBER                              what a number in an answer means
       ./tailfiddle why                                     the numbers that have a meaning
       ./tailfiddle help                                    this text

MU is in km^3/s^2, R in km, V in km/s. Each of them, DT, A, the Z of series and the NUMBER of root
and digits is a decimal (2, -1, 0.1, 1e-300, -0, inf, nan), taken as the nearest binary64 number
(beyond the largest one: infinity), or 0x and the 16 hex digits of a word (0x4000000000000000).
LIMIT, the most guesses that are made, is a whole number, 0 to 4294967295; predict and transfer
refuse all but 1 to 100. R1 and R2 are positions of three numbers each, X Y Z, so that transfer
takes 10 words. The last is the way: 'short' is through the angle between R1 and R2 that is below
180 degrees, 'long' through the rest of the turn, round the centre in the other sense.

The program's own line comes first: 'solved', the guesses made, x (of turn the angle), position
and velocity, as words in hex; or 'refused', the reason's number, the guesses made and, with 9 and
10, the last bracket. Below it the same in decimals, and the reason in words; 'why' with its number
tells more of it. Where a number is infinite or not a number, predict and turn say which: 101 is MU,
and so on to 108, DT or A; transfer says 1. root gives one line for each NUMBER: 'root', the word
and its decimal value, or 'refused' and the reason: 1, it is infinite or not a number; 13, it is
below zero.

A transfer's line has z in the place of x, and then the velocity at R1 alone. Below it stands the
arrival too: the state to which predict comes from R1 with this velocity after DT, and how far that
is from R2, in three digits; or why predict refuses it. predict gets 100 as its limit, whatever
LIMIT is. The status is that of the transfer.

digits prints the work on paper that docs/ROOT.md teaches as a table, and only when it is whole.
Above it stand the NUMBER's word and its decimal value; then, for each of the 54 turns, the pair of
binary digits that is brought down, the trial, the digit of the root, which is 1 where the trial is
taken off, and the remainder. Then the number that the 54 digits make, and the one that they make
rounded to 53; then the line that root prints. Zero has no table: it is its own root. Where NUMBER
is refused, the program's line, and below it the reason in words.

series gives one line for each Z: 'series', C2 and C3 as words, and their decimal values. These are
the sums of which the universal functions are made (docs/RULES.md), with twelve terms each, which
are good for Z from -4 to 4. Beyond that, and where Z is not a number, the line is 'refused 60', and
below it stands the reason in words.

Inputs for '-' are little-endian: the words in the order above, then LIMIT in 4 bytes, and for
transfer the way in 4 bytes, 0 for short and 1 for long; as many as come. The lines are the
program's own, and the line 'short' ends them where an input is cut off. Those of digits are 'turn'
with what stands in a row of the table, the pair as 0 to 3; 'rounded' with both numbers; 'root'.

write takes a problem a line: MU RX RY RZ VX VY VZ DT LIMIT, with blanks between them, and in front
of them OBJECT EPOCH, in every line or in none. With these the deck is of version 2, and its cards
have them; without them it is of version 1, and on its cards they are absent, which is not the same
as 0. A deck without cards is of version 2. What stands behind a # is a comment, and lines without a
problem are passed over. Each problem is predicted, and becomes a card: solved, with its x and
state, or refused, with the reason's number. OUT appears whole or not at all, in the place of an
older one; '-' is standard input for PROBLEMS, and standard output for OUT. On standard error it
says how many cards are solved and refused, and why those are. Where a line is wrong, or there are
more than 256 problems, it says so, and nothing is written.

OBJECT is a whole number, 0 to 4294967295, and EPOCH one of seconds, -9223372036854775808 to
9223372036854775807. An epoch can also be written as UTC, in this form: 2026-11-15T12:00:00Z, of a
year from 0001 to 9999. It is then so many seconds from 1970-01-01T00:00:00Z on, here 1794744000,
with 86400 in each day: a leap second, :60, is not taken. Neither OBJECT nor EPOCH changes an answer
or a verdict.

check prints the program's listing to the letter, and only when it is whole. A line for each card:
'card', its place, 'solved' or 'refused', its object and its epoch, or '- -' where they are absent,
and the verdict, 0 where it is accepted; a solved transfer is listed as 'solved' too. Then the
totals; then 'mean' and 'worst', as words in hex, or 'none': of the residuals, in seconds, of the
cards that are accepted as solved. A residual is |T - t| times the card's own unit of time. Of a
deck that is refused, one line: 'deck' and the reason's number. Then, on standard error, it says of
a deck that is not refused mean and worst in decimals of seconds, or that there is neither; and
below that what each verdict but 0, or the reason's number, means, a line each. Decks of both
versions are read.

show prints for each card its place, kind and verdict, its object, and its epoch with the UTC beside
it, or that they are absent, the problem and the answer, with units, in as few digits as read back
as the same number; then the totals, and mean and worst in seconds. They and the verdicts are
check's. Of a deck that is refused it says why, and prints nothing. With --problems it prints a line
for each card, numbers in 17 digits and the epoch in seconds, that write reads back to the bit: of a
deck that write has written, write makes the same bytes again, but for a refused card from before
with 1, which gets its own number of 101 to 108. write takes no transfers: they are left out, and it
says on standard error how many.

why prints what docs/REFUSALS.md says of the NUMBER of a refusal or verdict, written as in the lines
above: 22, and not 022. Without a NUMBER it prints each that there is, and in short what it means.

A program that is not built yet, or is older than its sources, is first proved and built with the
Rattle kit; standard error tells which crate is being proved. RATTLE_HOME names the kit's folder
where no 'rt' is on the PATH. The programs run on x86-64 alone.

Status: 0 every answer is solved, a root or a series, every card that is written is solved, no card
of the deck is rejected, why has an entry;
1 an answer, the deck or a card was refused or rejected, or the lines end with 'short';
2 wrong usage, or something is missing or fails: a closed input, a read, a write, a program. What
predict, turn, transfer, root, digits or series had printed is then not all.
"""


def run(texts: list[str]) -> int:
    """Prints the text."""
    streams.show(TEXT, "help: what it prints could not be written")
    return 0


def without_command() -> int:
    """Says the text where no command is given."""
    try:
        streams.write(2, os.fsencode(TEXT))
    except OSError:
        pass
    return 2
