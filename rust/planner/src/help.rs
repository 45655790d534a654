//! What `planner --help` prints, and the parts of it for each command.

/// The version of the product, with a line end.
pub const VERSION: &str = include_str!("../../../VERSION");

/// The lines of a command start with `planner` and its name; what is said of it is indented.
pub const HELP: &str = "\
planner file PLAN.txt OUT.plan [--force]
                                   writes the plan file of a plan in text form; --force writes it
                                   over a file of another kind too
planner text IN.plan               prints a plan file in text form, with n0, l0, e0 for names
planner check PLAN.txt|IN.plan     prints a line that begins with warning for each kind of what the
                                   plan leaves perfect, with all names: nodes and links that no event
                                   names, events and windows without members, events with a
                                   probability of 0; then what the walk examines and whether it is
                                   complete, a warning where it is not; or, in a line that begins with
                                   refused, why the plan is refused;
                                   the exit status is 1 where there is such a line, else 0
planner listing PLAN.txt|IN.plan [--witness|--no-witness]
                                   prints for people the bounds of each pair, the worst pair first,
                                   with the first examined scenario that cuts it where there is one,
                                   first in the walk's order, not the likeliest: it is not the cause;
                                   --no-witness leaves it out, and so does a listing of more than 500
                                   pairs without --witness, since the search takes long;
                                   where the walk stopped at the cap, the head has the lowest of ten
                                   thresholds, from 10^15 down to 10^6, at which it does not, and how
                                   far apart lower and upper would be there;
                                   a long listing shows its progress where standard error is a
                                   terminal: the ends of the walk that are reached, of the cap
planner listing PLAN.txt|IN.plan --at 'Tue 14:30'
                                   prints the listing at a minute of the week: windows of planned work
                                   that hold it take their nodes and links out, and beside each pair
                                   stand its upper figures without the work; a share is of the time
                                   while the work lasts, seconds are of a year in which it never ends;
                                   no scenario that cuts a pair is shown, since only a run takes
                                   windows, and the search for that scenario takes none
planner bounds PLAN.txt|IN.plan    prints the bounds as the program listing does, line by line
planner thresholds PLAN.txt|IN.plan [T..] [--svg FILE [--pair NODE NODE] [--force]]
                                   prints a row for each threshold T: how many scenarios are examined,
                                   complete, E, the gap, which is what the two bounds of every pair
                                   are apart, and the worst pair with its bounds; T in units of
                                   10^-18, at most 16 of them, each below the one before; without a T
                                   they are ten, from 10^15 down to 10^6; the plan's cap counts, its
                                   own threshold does not; --svg also draws in FILE the two bounds of
                                   a pair over the thresholds, both axes logarithmic: the pair after
                                   --pair, or else the worst at the threshold with the smallest gap
planner credit PLAN.txt|IN.plan NODE NODE FEE LIMIT RATE
                                   prints the service credit of a contract for two nodes, at least
                                   and at most, and the headroom: the limit less the upper downtime;
                                   FEE a year, and RATE for each started minute above the limit, in
                                   cents, at most 10^12 each; LIMIT in seconds a year, at most
                                   31536000; the credit is that of the downtime that the bounds give,
                                   a mean over years, not the mean of the credits of single years
planner sheet PLAN.txt OUT.sheet [--force]
                                   writes the equipment sheet of a plan in text form; --force writes
                                   it over a file of another kind too
planner events IN.sheet            prints the events of an equipment sheet by falling q, in text form

planner COMMAND --help             prints what is said here of a command, and the exit status
planner --version                  prints the version

A file that starts with RSG is a plan file, one that starts with EQS is an equipment sheet, and any
other in UTF-8 without control characters is a text, whatever its name. The nodes of a plan file are
n0, n1 and so on. The file - is standard input. At most 16777216 bytes are read. After the word --
none is an option.

A file that is written is there as a whole or not at all: what stood there stays until the new one
is on the disk. The file that is read is never written over. A file that is neither empty nor of the
kind that is written, a plan file, a sheet or a picture (<svg or <?xml), is written over with
--force alone. A device or a pipe is written straight.

Exit status: 0 done; 1 refused, by what stands in a file or by what is asked of it, or a warning of
  check; 2 the words of the command are wrong, or a file is not read or not written.

What a plan leaves perfect is told on standard error by every command that gives figures or writes a
file, and in the head of a listing, with the first five names.

The text form, a line for each thing, what is named standing above; # at the start of a word starts a
comment, and inside a word it is an error:
  threshold T            scenarios of less mass are left out; units of 10^-18, 1 to 10^18
  cap C                  the most ends of the walk, 1 to 1000000
  node NAME              a station; at most 64
  link NAME NODE NODE    at most 128; parallel ones are allowed
  event NAME Q MEMBER..  what fails together, nodes and links; Q in 10^-9, never rising; at most 128
  equipment NAME FIT HOURS LENGTH MEMBER..
                         an event with Q = FIT * HOURS * LENGTH, at most 10^9: failures in 10^9 hours,
                         hours to repair, and 1 for a box or kilometres for cable
  window NAME START END MEMBER..
                         planned work, every week: nodes and links are out from START on and before
                         END; each is a day (Mon Tue Wed Thu Fri Sat Sun) and a time HH:MM from 00:00
                         to 23:59, and an END may be at 24:00; START is before END: work over the end
                         of the week is two windows, one up to Sun 24:00 and one from Mon 00:00
In a text with equipment, events and equipment stand in any order. They are numbered by falling Q,
equal ones in the order of their lines, and together they are at most 128.
Only listing --at counts windows. A plan file and an equipment sheet have none: file and sheet leave
them out. bounds, thresholds and credit are without them. Each says so on standard error.

This is a convenience outside the proof. The bounds, with planned work and without and at several
thresholds, their seconds, the scenarios that cut a pair, credits and headroom, the plan files and
the events of a sheet come from the proved code; nothing else that it reads, prints or draws is
proved.
";

/// What the help says of a command, and of the exit status.
pub fn help_of(command: &str) -> String {
    let about = parts(&format!("planner {command} "));
    let status = parts("Exit status");
    format!("{about}\n{status}planner --help tells the rest: kinds of files, the text form, what is proved.\n")
}

/// How a command is called, as the help has it.
pub fn form_of(command: &str) -> &'static str {
    let start = format!("planner {command} ");
    let line = HELP.lines().find(|line| line.starts_with(&start));
    line.and_then(|line| line.split("  ").next()).unwrap_or("")
}

/// The lines of the help that start so, each with the indented lines after it.
fn parts(start: &str) -> String {
    let mut inside = false;
    let about = |line: &&str| {
        if !line.starts_with(' ') {
            inside = line.starts_with(start);
        }
        inside
    };
    let lines = HELP.lines().filter(about);
    lines.map(|line| format!("{line}\n")).collect()
}
