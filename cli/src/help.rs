//! The manual.

use crate::end::{End, Trouble};
use crate::output::answered;

pub fn print() -> Result<End, Trouble> {
    answered(MANUAL.as_bytes()).map(|_| End::Answered)
}

const MANUAL: &str = "\
NAME
    lampsickle - ask a KeyNote (RFC 2704) query in plain text

SYNOPSIS
    lampsickle ask --value VALUE... --requester NAME... [OPTION...]
    lampsickle explain [--json] FILE
    lampsickle batch [--json] [--require CLASS] [--strict] [FILE...]
    lampsickle journal create FILE --size N
    lampsickle journal append FILE [--text TEXT]
    lampsickle journal list FILE
    lampsickle journal recover FILE [--damaged]
    lampsickle register FILE CALL [NUMBER...]
    lampsickle --help

DESCRIPTION
    ask builds a query record from policy files, credentials and attributes,
    has the proved evaluator answer it, and prints the class by name, its rank,
    the rounds it took and how many principals POLICY reaches. For each
    assertion that was set aside it prints file, line and column, the reason
    in words, and the line with a caret under the place, on standard error.

    explain decodes a record, and shows where a refusal's place lies.

    batch answers many records in order, a line for each, at once: those in the
    FILEs, or, for \"-\" or where none is named, those on standard input, each
    behind its length in four bytes, big-endian. A FILE that can't be read is
    told, and the others go on.

    journal keeps answers in a FILE that survives a power cut: create makes one
    of N bytes, 16 to 65,535; append adds what is on standard input, every byte
    of it, or TEXT; list prints the finished entries, each on a line, in quotes
    and with escapes, and tells of an unfinished end; recover keeps the finished
    entries and clears the rest, which append asks for behind a power cut.

    register makes a call on the register of priority moves that FILE holds, and
    says what was done. A call that is refused changes nothing.

OPTIONS OF ask
    -v, --value VALUE        a compliance value; the weakest is given first.
                             2 to 16, each of 1 to 64 bytes
        --values A,B,C       several at once, separated by commas
    -r, --requester NAME     a principal that asks; 1 to 8, each of 1 to 256 bytes, none POLICY
    -a, --attribute N=VALUE  an attribute; at most 32. A name is a letter, then
                             letters, digits and underscores. A value stands as
                             it is, or in double quotes with the escapes of the
                             RFC: N = \"VALUE\"
        --attributes FILE    attributes from a file, each on a line; blank lines
                             and lines that begin with \"#\" are skipped
    -l, --local FILE         local assertions, which are trusted
    -c, --verified FILE      one credential, whose signature you have verified
        --all-verified FILE  credentials, and you have verified the signature of
                             each of them; each has a Signature
    -u, --unverified FILE    credentials whose signatures you have not: they are
                             set aside, and told
        --record FILE        write the record to FILE and ask nothing
        --journal FILE       append the answer to the journal in FILE, then print it;
                             where it can't be kept, it isn't printed
        --json               print JSON
        --require CLASS      exit with 1 where the class is lower than CLASS
        --strict             exit with 5 where an assertion was set aside
        --no-warn KIND,...   leave warnings of these kinds unsaid: number (\"@\" or
                             \"&\" makes 0 of what is no number), pattern (what stands
                             behind \"~=\" is none), unset (a name that is read
                             isn't set), unread (nothing reads an attribute)

    A file may hold several assertions, separated by blank lines, but one given
    by --verified; a part with nothing but comments is skipped. Of several each
    has its own Authorizer, and Licensees or Conditions. Behind a Signature there
    is nothing but comments. There are at most 200 assertions in all, each of at
    most 8,192 bytes. \"-\" for FILE is standard input (or output). A value that
    begins with \"-\" is given as --option=-value.

OPTIONS OF explain AND batch
        --json               print JSON; batch prints an object on each line
        --require, --strict  (batch) as for ask, for every record

OPTIONS OF journal
        --size N             (create) the file's size; it stays as it is
        --text TEXT          (append) the answer, in place of standard input
        --damaged            (recover) clear also what no power cut leaves, behind
                             which finished entries may stand

CALLS OF register
    create                   an empty register, where nothing is yet
    issue PRINCIPAL AMOUNT   moves to a principal, which is added if it isn't held
    pass FROM TO AMOUNT      moves from one principal to another
    spend PRINCIPAL AMOUNT   moves that are gone
    remove PRINCIPAL         a principal that holds no moves
    find PRINCIPAL           its place, its moves, and the work of finding it
    list                     all that is held, issued and spent

    A principal is a number from 0 to 4294967295, an amount 1 to 1000000, in digits
    alone. FILE is replaced whole, under a lock, FILE.lock beside it, which stays: a
    crash leaves the old register or the new one. FILE is no \"-\", no link, and has
    one name.

OUTPUT
    Answers go to standard output, and what explain explains; all else goes to
    standard error.

EXIT STATUS
    0   answered; for batch, every record was; for register, granted
    1   answered, but a class is lower than --require
    2   the command line is wrong; nothing was asked
    3   refused, also by a journal; for batch, some record was
    4   a file can't be read or written, or not as what it was given for
    5   answered, but under --strict an assertion was set aside
    Where several hold, the first of 2, 4, 3, 5, 1 counts.

EXAMPLE
    lampsickle ask --values hold,immediate --requester agent:castle \\
        --attribute injured=yes --local policy.kn --verified station.kn

SEE ALSO
    docs/USING.md: the record, the assertion language, every number and reason.
    examples/: policies with commands and what they print.
";
