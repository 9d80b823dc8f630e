//! The texts that the program reads, what its exit status says, and what is proved.

/// What `pspec-book help` prints below the commands.
pub const HELP: &str = "\
A policy (# starts a comment):

  users                     a tree by indentation; the first line is the root
    Analyst
      Report
  data                      the same, with each category's own operations
    All
      Address [truncate]
        City
        Street withdraws [truncate]
      Price [avg, sum]
  columns                   a data leaf, or - for an unlabelled column
    price: Price
  functions                 an operation, or - for none
    mean: avg
  rules                     one a line
    Analyst exclude Report, [access Price] => [{avg}]
    Analyst, [projection Address exclude City, condition Price] => [{}, {avg}] or [{}, {sum}]
    Report, [projection City] => forbid

Actions are projection, condition and access; 'or' stands between restrictions. Numbers follow the
order of the lines, and operations their first appearance. A section 'operations' at the top, one a
line, gives another order. 'Name under Parent', indented as the root is, gives a category's parent
where the order of the lines keeps it from standing below it.

A category supports what the one above it supports, less what it withdraws, and its own. The order in
a line is Name [own] withdraws [others] under Parent, and all but the name may be left out. No
operation stands in both lists. 'withdraws []' withdraws nothing.

A name has at most 64 letters, digits, '_', '-' and '.', and starts with a letter or '_'.

A plan, one row a line, its number optional; USER is a user without others below it:

  0 = column price          a column, or a label for its lowest column
  1 = mean(0)               a function of one row or two
  2 = choose 0 ? 0 : 1      row 0 decides
  output 2
  where 1

A column is had under the first operation applied to it that its label supports, or raw if there is
none. A function of two rows does not count as an operation, nor does anything applied to its result.
Where an operation does not count as a category withdraws it, judge and flows name the category.

Names are taken from BOOK.names; without that file they are numbers, such as user0 or data3.

Exit status: 0 when the answer is given and, for judge, no rule is broken; 1 when the policy, the
book, the user, the plan or the row is refused, or a rule is broken, so that only 0 opens a gate; 2
for wrong arguments, a file that can't be read or written, or names of another book; 3 for report
--exit-code when some rule is idle, and for blocked --exit-code when some rule is blocked. For edit it
is 4 when the input ended and edits are not written, else 1 when some line was not carried out. With
--json the answer is one line of JSON; what is refused is said in words on the other output, and the
status is the same. edit --json answers each line by a line of JSON, also where it is refused.

The tree of a row has a line for each row that its value is made of: the row's number, and column,
apply or choose. Two spaces further in stand, below an apply, the rows that the function takes, and
below a choose the row that decides and then the two that it chooses from. A row reached twice is
written twice, and more than 4,096 lines are refused. With --names each line goes on: with the column
and its label, the function and its operation, or which row decides. Whether a column is had under
that operation is said by flows.

For each blocked rule, blocked names a few rules that close its data, itself among them unless it
asks for nothing. None of the others can be left out, but another set may do as well. A change of the
rules that opens the data changes at least one of those named. That may not be enough: rules that are
not named may close the same data. A function for an operation that none had may open them as well,
and so may an operation that is no longer withdrawn.";

/// What the editor's `help` prints, and `pspec-book help` too.
pub const EDITING: &str = "\
The editor, edit POLICY, carries out the lines of its input one by one:

  add RULE                  add a rule behind the last one, in the notation of the policy
  delete N                  delete rule N; the later ones are one number lower then
  list                      each rule with its mark: idle or needed
  why N                     which rules cover an idle rule, or the user and plan that need it
  write                     write the policy back
  quit                      leave; where edits are not written, only if said twice in a row
  help                      say this

After each edit it says which other marks changed. An added rule makes no idle rule needed, and a
deleted one no needed rule idle. Empty lines and comments (#) do nothing, and a line with a mistake
changes nothing.

Only lines of rules change in the file: that of a deleted rule goes, with a comment in it, and that of
an added one is put below the last rule as it was typed, with its comment. All other lines stay as
they are. The new text is written to another file beside the policy, which then takes its name, so
that the policy is never half written. Where the policy is found changed since it was read, it is left
as it is. A write that was interrupted may leave a file .POLICY.0.new, which can be deleted. The book
is not changed: build it again.";

/// The end of what `pspec-book help` prints.
pub const PROVED: &str = "\
Every answer about a book comes from the proved engine: the book check, Flows, Judge, Idle, Blocked,
Culprits, Tree, and Arrive and Depart for the editor's marks. Why a rule is idle is found by asking it
about books with rules left out. This program stands outside the proof: that a text means the blocks
made of it, which accesses break a rule and from which lines they come, and the words around an answer
are tried by tests only.";
