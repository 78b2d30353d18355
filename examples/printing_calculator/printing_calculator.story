# From a key to the printout

## A sum

This calculator adds, subtracts and multiplies. While it is [running](run), press [1](press 1) [2](press 2) [+](press +) [3](press 3) [0](press 0)
[=](press =), here or on its own keys. The printout shows what you keyed, and the result.

One 4004 does all of it: it lights the digits, reads the keys, calculates, and sends codes to the printer. The next steps pause it and look inside.

## One digit at a time

[Pause](stop): at any instant at most one digit is lit. [Resume](run), and you see all nine.

The program shifts a 1 through the ten lines of a chain, a 4003. Nine of these lines select the digits, and the first four also drive the rows of
keys: the [wiring](show wiring) shows both. In the program, [a turn](go to turn) shifts that 1 and lights one digit after the other.

## A key goes down

[Pause](stop) and [press 5](press 5): while the calculator is paused, a key stays down. [Run to where the columns are read](run to look), several
times. Each time, the 1 is one line further. Only the second row, which has the 5, reads a key.

One reading is not enough, because a contact bounces. [Run to where the key is accepted](run to taken): three turns have found the same key. R11
has its number. Go back to where [R11 gets it](back to r11), and to where [R9 gets it](back to r9) from the row and the column.
[Forward](forward), twice, returns to this point.

## A digit of a number

[Run to where the digit is entered](run to enter). R15 has its code. In [RAM](show memory), the first row is the number shown, the lowest digit
first. Its digits move up, and the new one goes in: [run on to where it is shown](run to show).

[Run to the next turn](run to turn). The third row of RAM now has the codes of the nine digits; F is a dark digit. [Release 5](release 5) and
[resume](run).

## A printed line

[Pause](stop), [press =](press =), and [run to where a character is sent](run to send). The accumulator has its code: a digit is its own code,
D is the =, and F ends the line.

The code goes to a port first, then the printer's strobe rises. [Run on](run to dark): the printout has one more character.
[Go back to before the code was written](back to ram0.2): the character is gone. The printout shows what the program has sent up to this point.

## Further

[Release =](release =) and [resume](run). [Source](show program) has the program with its comments: change it, and press Assemble and run. The
[tests](show tests) check what the calculator promises. [Waves](show waves) records its lines.
