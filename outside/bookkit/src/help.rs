pub const HELP: &str = "\
bookkit report INPUT        the return in words and columns: verdict, changes, ladders, curves, records, hints
bookkit report --html INPUT [OUTPUT]   the same as one page with pictures and every number, to be read and filed
bookkit report --svg INPUT [OUTPUT]    the verdict and the changes as one picture
bookkit inbox DIRECTORY     every .input of a folder in a row, worst first: over, turned down, close, within
bookkit inbox --csv DIRECTORY [OUTPUT] the same as a list for other programs
bookkit inbox --html DIRECTORY FOLDER  the same as FOLDER/index.html, with a page FOLDER/NAME.html for each return
bookkit show BOOK           list a book as text, and mark the record and the field at which irreport would turn it down
bookkit show --input INPUT  the same for an input of irreport: capital in 8 bytes, then the book
bookkit make TEXT [OUTPUT]  turn text into a book, or into an input of irreport if it names capital
bookkit explain NUMBER      say what a refusal number means, what to look at and what usually causes it
bookkit help                print this

BOOK, INPUT and TEXT may be - for standard input. Without OUTPUT, or where it is -, standard output is written.
OUTPUT is written as a whole or not at all; one that exists and is no regular file (a link, a device) is left alone.
Books end at 65,528 bytes and inputs at 65,536, as irreport has it: what is longer is neither listed nor made.
Status: 0 done; 1 irreport would turn it down; 2 not done. 1 and 2 come with one line of why.
docs/format.md says what the bytes of a book and of an input are.

Every figure of report and inbox is one that irdetail prints, the program that is proved: bookkit words and draws them,
and computes none. irdetail is the program that IRDETAIL in the environment names, else that of the repository in which
bookkit was built, else that of the PATH. Of a book that is turned down, report tells the record, the field, its bytes
and what usually causes it, and its status is 1. Hints say what looks odd and change nothing. The status of inbox is 0
where every .input was read and 1 where some could not be: each is named in its row, and the last line counts them.

The text form has one record to a line. # begins a comment. Fields may come in any order; none may lack.

  capital 4214126
  single-flow currency=1 side=asset months=241 days=0 amount=1000000
  fixed-coupons currency=1 side=liability period=6 count=10 coupon=25 principal=1000
  floating currency=1 side=asset months=3 days=0 principal=1000 coupon=12
  floating-spread currency=1 side=asset months=9 days=1 principal=1000 coupon=12 period=3 count=4 spread=5
  non-maturity-deposit currency=1 category=1 total=1000 core=11-12:450
  prepayable-loan currency=1 share=1000 principals=9:1000 interests=1-8:10,9:100
  term-deposit currency=1 share=6000 amounts=6:1000
  option-add-on currency=1 side=sold values=1:50,2:-20
  curve currency=1 rates=1-10:20000,11-19:25000 parallel=200 short=300 long=150
  listed-curve currency=2 edition=1 code=EUR rates=1-19:20000
  raw ff 0a

Lists name buckets 1 to 19 (values: scenarios 1 to 6), one by one or first-last; what is not named is nil, and
nil alone is a list of nothing else. Sides are asset and liability, or sold and bought; a bad side is its number.
Money is in thousands, rates in millionths, shocks in basis points, shares in hundredths of a per cent (a loan's
prepaid in a year, a term deposit's withdrawn once). A listed-curve has the shocks that its edition lists for its
currency code, and show says them: edition 1 is the standard of 2016, edition 2 the recalibration of 2024, which was
entered from recollection. A code of other bytes than letters and digits is in hexadecimal, as code=45:55:20.
raw holds bytes that make no whole record. make judges no numbers, as long as they fit: show does.
";
