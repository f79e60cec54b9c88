"""The texts of the command line, whole: help, the version, and what wrong words are answered.

compare/runs/statuses.py runs them. Each was written by hand: what the commands, words and options are called, and what they are for, is that
of docs/FORMATS.md and crates/mpd_options, and how it is laid out are the rules of `clap` 4. Help has what a command is for, its usage,
its arguments, its options in two columns with `-h` last, and the example. A fault has what is wrong, a tip where there is one, the
usage, and where help is. The usage has `[OPTIONS]` where nothing that was given is named in it, and else what was given and what is
required alone: options first, those that are required before others, and then the words of files.
"""

import re
from typing import NamedTuple

from model.modes import KNOWN

PROGRAM = """\
A reversible debugger of small MPI rank scripts.

Without words it reads a script from standard input, up to a line ---, and answers the trace words behind it.

Usage: mpdbg <COMMAND>

Commands:
  diagnose  Say whether the runs of the script of a file can hang or trap, how, and where that was decided
  trace     Trace the script of a file
  debug     Debug the script of a file, at a prompt
  dap       Debug the script of a file in an editor, by the Debug Adapter Protocol
  run       Answer JSON requests on the script of a file
  serve     Answer JSON requests of several clients, on one session
  check     Look for deadlocks: try the choices of wildcard receives one after another
  verify    Check a witness that check has written
  words     Write the trace words of the run with these choices
  c         Write the script of a file as a C program with MPI calls
  picture   Draw a run of the script of a file, as SVG
  page      Write a page for a browser that shows runs of the script of a file
  help      Print this message or the help of the given subcommand(s)

Options:
  -h, --help     Print help
  -V, --version  Print version

Example:
  ./mpdbg < examples/first.trace
"""

DIAGNOSE = """\
Say whether the runs of the script of a file can hang or trap, how, and where that was decided

Usage: mpdbg diagnose [OPTIONS] <FILE>

Arguments:
  <FILE>  The script

Options:
      --ranks <N[-M]>  How many ranks run the script, 1 to 16, in place of the number in it; N-M tells each number from N to M by a line
      --mode <M>       How standard sends behave: rendezvous, which is usual, buffered, or slots:K with K from 0 to 65536
      --modes <N>      Try rendezvous, slots:1 to slots:N and buffered in place of one mode, 0 to 1000
      --strict         End with status 1 also where calls can be left over
      --json           Print each diagnosis as a JSON object on a line, in place of text
  -h, --help           Print help

Examples:
  ./mpdbg diagnose examples/race.mpd
  ./mpdbg diagnose examples/exchange.mpd --mode buffered --strict
  ./mpdbg diagnose examples/race.mpd --ranks 2-5
  ./mpdbg diagnose examples/exchange.mpd --modes 2
"""

TRACE = """\
Trace the script of a file

Usage: mpdbg trace [OPTIONS] <FILE>

Arguments:
  <FILE>  The script

Options:
      --ranks <N>  How many ranks run the script, 1 to 16, in place of the number in it
      --mode <M>   How standard sends behave: rendezvous, buffered, or slots:K with K from 0 to 65536 [default: rendezvous]
      --echo       Show each line that is read before its answer
  -h, --help       Print help

Trace words stand on standard input, one a line:
  local P, match S R, wake P, release   take a step, such as match 0.0 1.0
  back                                  take the last step back
  redo, goto N                          take it again, take steps back until N are left
  enabled, show                         list the steps that are enabled, show the state

Example:
  echo 'local 0' | ./mpdbg trace examples/exchange.mpd --mode buffered
"""

DEBUG = """\
Debug the script of a file, at a prompt

Usage: mpdbg debug [OPTIONS] <FILE>

Arguments:
  <FILE>  The script

Options:
      --ranks <N>          How many ranks run the script, 1 to 16, in place of the number in it
      --mode <M>           How standard sends behave: rendezvous, buffered, or slots:K with K from 0 to 65536 [default: rendezvous]
      --choices <C>        The choices of a run that is laid ahead, numbers from 0 with spaces between them
      --witness <WITNESS>  A witness or a report, whose run is laid ahead
      --ends               The choices are those of a leaf of `check --ends` or `check --sample`
      --echo               Show each line that is read before its answer
      --width <N>          How many bytes a line of an answer has before it wraps, 20 to 1000 [default: 80]
      --view               Draw the screen anew after each word: the script, the ranks and the last answer
      --height <N>         How many lines the screen of --view has, 10 to 1000 [default: 24]
  -h, --help               Print help

Words stand on standard input, one line each; help all lists them:
  next, run, back, run-back, goto N, redo   go forward and back
  list, ranks, vars, calls, why P           look
  check, deadlock                           try the choices from here, go to a deadlock

Example:
  echo run | ./mpdbg debug examples/race.mpd
"""

DAP = """\
Debug the script of a file in an editor, by the Debug Adapter Protocol

Usage: mpdbg dap [OPTIONS] <FILE>

Arguments:
  <FILE>  The script

Options:
      --ranks <N>          How many ranks run the script, 1 to 16, in place of the number in it
      --mode <M>           How standard sends behave: rendezvous, buffered, or slots:K with K from 0 to 65536 [default: rendezvous]
      --choices <C>        The choices of a run that is laid ahead, numbers from 0 with spaces between them
      --witness <WITNESS>  A witness or a report, whose run is laid ahead
      --ends               The choices are those of a leaf of `check --ends` or `check --sample`
  -h, --help               Print help

An editor starts it, as docs/EDITORS.md tells. Messages stand on standard input, each in a frame with
its length, and are answered by frames on standard output. --choices and --witness lay the steps of a
run ahead, as in `mpdbg debug`.

Example:
  ./mpdbg dap examples/race.mpd --mode buffered
"""

RUN = """\
Answer JSON requests on the script of a file

Usage: mpdbg run [OPTIONS] <FILE>

Arguments:
  <FILE>  The script

Options:
      --ranks <N>  How many ranks run the script, 1 to 16, in place of the number in it
      --mode <M>   How standard sends behave: rendezvous, buffered, or slots:K with K from 0 to 65536 [default: rendezvous]
      --wide       Answer more requests: run-on, hit, script, where, all, decision, steps, lines and explain, and more kinds and fields of break
  -h, --help       Print help

Requests stand on standard input, a JSON object on each line, and each is answered by one line:
  step, next, run                    go forward
  back, redo, goto, run-back         go back, and forward again
  state, enabled, vars, calls, why   look at where it stands
  break, unbreak, breaks, explore    set breakpoints, list the runs from here
With --wide these are answered, too, and `break` has more kinds and fields:
  run-on                             go forward, also at a single candidate
  hit                                tell which breakpoint the last step hits
  script, where, all, decision       tell names, lines, and what comes next
  steps, lines, explain              list steps, lines of calls, and why it ended so

Example:
  echo '{"cmd":"run","max":100}' | ./mpdbg run examples/race.mpd
"""

SERVE = """\
Answer JSON requests of several clients, on one session

Usage: mpdbg serve [OPTIONS] --port <P> --clients <N> <FILE>

Arguments:
  <FILE>  The script

Options:
      --ranks <N>    How many ranks run the script, 1 to 16, in place of the number in it
      --mode <M>     How standard sends behave: rendezvous, buffered, or slots:K with K from 0 to 65536 [default: rendezvous]
      --port <P>     The port that it listens on, 1 to 65535
      --clients <N>  How many clients it answers, 1 to 16
      --wide         Answer more requests: run-on, hit, script, where, all, decision, steps, lines and explain, and more kinds and fields of break
  -h, --help         Print help

It listens on 127.0.0.1 at port P, prints `listening P`, and answers N clients at once.
Each of them sends the requests of `mpdbg run`, and all are answered on the one session.
When all have left, it prints how many requests were taken: `served E`.

Example:
  ./mpdbg serve examples/race.mpd --port 4000 --clients 2
"""

CHECK = """\
Look for deadlocks: try the choices of wildcard receives one after another

Usage: mpdbg check [OPTIONS] <FILE>

Arguments:
  <FILE>  The script

Options:
      --ranks <N>    How many ranks run the script, 1 to 16, in place of the number in it
      --mode <M>     How standard sends behave: rendezvous, buffered, or slots:K with K from 0 to 65536 [default: rendezvous]
      --modes <N>    Try rendezvous, slots:1 to slots:N and buffered in place of one mode, 0 to 1000
      --runs <N>     How many runs of each piece are tried at most, 1 to 65536 [default: 1000]
      --fuel <N>     How many steps a run takes at most, 1 to 1000000 [default: 100000]
      --split <K>    By how many choices the runs are cut into pieces, 0 to 8 [default: 1]
      --workers <N>  How many workers make the report, 1 to 16 [default: 4]
      --ends         List each end once: leave out runs that differ only in the order of steps that don't conflict
      --outcomes     Count the runs that come to each different end, without trying them one by one
      --states <N>   How many states --outcomes keeps at most, 1 to 16000000 [default: 1000000]
      --sample <N>   Draw the choices of N runs at random, 1 to 65536
      --seed <S>     What --sample begins to draw with, 0 to 18446744073709551615 [default: 0]
      --explain      Explain each deadlock and trap, and tell what is left over
      --group        List each different end once, with how many runs come to it
      --until <END>  Stop at the first run that ends in a deadlock or a trap [possible values: deadlock]
      --witness      Print the trace words of a run that ends in a deadlock
      --traps        With --witness, print those of a run that ends in a trap too, as other ways to report do [see docs/FORMATS.md]
      --complete     End with status 4 where nothing was found and not all was tried, with --modes in each mode; not beside --piece or --pieces
      --piece <N>    Print the part of the report that piece N has, 0 to 1023
      --pieces       Print how many pieces there are, and nothing else
      --json         Print each report as a JSON object on a line, in place of text; not beside --piece or --pieces
  -h, --help         Print help

Examples:
  ./mpdbg check examples/exchange.mpd --witness --explain
  ./mpdbg check examples/race.mpd --ends --group
  ./mpdbg check examples/race.mpd --sample 100 --seed 7
"""

VERIFY = """\
Check a witness that check has written

Usage: mpdbg verify [OPTIONS] <FILE> <WITNESS>

Arguments:
  <FILE>     The script
  <WITNESS>  The file of the witness

Options:
      --ranks <N>  How many ranks run the script, 1 to 16, in place of the number in it
      --mode <M>   How standard sends behave: rendezvous, buffered, or slots:K with K from 0 to 65536 [default: rendezvous]
      --leaf <N>   Take the witness of leaf N of a whole report, 0 to 67108863
  -h, --help       Print help

Example:
  ./mpdbg check examples/race.mpd --witness | ./mpdbg verify examples/race.mpd /dev/stdin --leaf 0
"""

WORDS = """\
Write the trace words of the run with these choices

Usage: mpdbg words [OPTIONS] --choices <C> <FILE>

Arguments:
  <FILE>  The script

Options:
      --ranks <N>    How many ranks run the script, 1 to 16, in place of the number in it
      --mode <M>     How standard sends behave: rendezvous, buffered, or slots:K with K from 0 to 65536 [default: rendezvous]
      --choices <C>  The choices of the run, numbers from 0 with spaces between them
      --fuel <N>     How many steps a run takes at most, 1 to 1000000 [default: 100000]
      --ends         The choices are those of a leaf of `check --ends` or `check --sample`
  -h, --help         Print help

The choices are those of a leaf of `mpdbg check`: the run of `leaf 3 [0 1 0] ..` is that of --choices '0 1 0'.
Those of a leaf of `mpdbg check --ends` or `mpdbg check --sample` want --ends beside them.

Example:
  ./mpdbg words examples/race.mpd --choices '0' | ./mpdbg trace examples/race.mpd
"""

C = """\
Write the script of a file as a C program with MPI calls

Usage: mpdbg c [OPTIONS] <FILE>

Arguments:
  <FILE>  The script

Options:
      --ranks <N>  How many ranks run the script, 1 to 16, in place of the number in it
  -h, --help       Print help

It is one file of C11, for as many processes as the script has ranks.

Example:
  ./mpdbg c examples/race.mpd > race.c
"""

PICTURE = """\
Draw a run of the script of a file, as SVG

Usage: mpdbg picture [OPTIONS] <FILE>

Arguments:
  <FILE>  The script

Options:
      --ranks <N>          How many ranks run the script, 1 to 16, in place of the number in it
      --mode <M>           How standard sends behave: rendezvous, buffered, or slots:K with K from 0 to 65536 [default: rendezvous]
      --choices <C>        Draw the run with these choices, numbers from 0 with spaces between them
      --witness <WITNESS>  Draw the run of a witness or a report
      --words <WORDS>      Draw the run of a file of trace words, one a line
      --fuel <N>           How many steps a run takes at most, 1 to 1000000 [default: 100000]
      --ends               The choices are those of a leaf of `check --ends` or `check --sample`
      --plain              Leave out the list of calls and the legend
      --large              Leave them out, and draw larger, for a slide
  -h, --help               Print help

One of --choices, --witness and --words says which run is drawn. Without them it is the run of the
first candidates. --fuel is for a run of choices or of first candidates. Choices of a leaf of
`mpdbg check --ends` or `mpdbg check --sample` want --ends beside them.

Example:
  ./mpdbg picture examples/race.mpd --choices '1' > race.svg
"""

PAGE = """\
Write a page for a browser that shows runs of the script of a file

Usage: mpdbg page [OPTIONS] <FILE>

Arguments:
  <FILE>  The script

Options:
      --ranks <N>          How many ranks run the script, 1 to 16, in place of the number in it
      --mode <M>           How standard sends behave: rendezvous, buffered, or slots:K with K from 0 to 65536 [default: rendezvous]
      --choices <C>        Show the run with these choices, numbers from 0 with spaces between them
      --witness <WITNESS>  Show the run of a witness or a report
      --words <WORDS>      Show the run of a file of trace words, one a line
      --runs <N>           Show the runs of the first N leaves that `check` lists, 1 to 1000
      --fuel <N>           How many steps a run takes at most, 1 to 1000000 [default: 100000]
      --states <N>         How many states each search of a page comes to at most, 1 to 16000000 [default: 100000]
      --ends               Take choices and runs along the wide walk, as `check --ends` does
      --hide               Cover how runs end until the key h is pressed
  -h, --help               Print help

One of --choices, --witness, --words and --runs says which runs are shown. Without them it is the first
run that hangs or traps, and the first that ends well. --ends is for choices and for runs of `mpdbg check`:
choices of a leaf of `mpdbg check --ends` or `mpdbg check --sample` want it beside them.

Example:
  ./mpdbg page examples/stolen_message.mpd > run.html
"""

VERSION = 'mpdbg 0.1.0\n'

# What is told of a word that names no mode, at a terminal.
NO_MODE = "'{}' is none; the modes are rendezvous, buffered, and slots:K with K from 0 to 65536"


def known(text):
    """A text as the program has it: without modes of slots, where it has none of them."""
    return text if KNOWN else re.sub(', buffered, (and|or) slots:K with K from 0 to 65536', r' \1 buffered', text)

# Words, parted by `|`, and what they print. What stands in front of `--help` isn't looked at.
ANSWERS = (
    ('--help', PROGRAM), ('-h', PROGRAM), ('help', PROGRAM), ('--version', VERSION), ('-V', VERSION),
    ('diagnose|--help', DIAGNOSE), ('diagnose|-h', DIAGNOSE), ('help|diagnose', DIAGNOSE), ('diagnose|no-such-file|--strict|--mode|no-mode|--help', DIAGNOSE),
    ('trace|--help', TRACE), ('trace|-h', TRACE), ('help|trace', TRACE), ('trace|no-such-file|--mode|no-mode|--help', TRACE),
    ('debug|--help', DEBUG), ('debug|-h', DEBUG), ('help|debug', DEBUG), ('debug|no-such-file|--witness|no-such-file|--mode|no-mode|--help', DEBUG),
    ('debug|--witness=|-h', DEBUG),
    ('debug|a|--choices|x|--ends|-h', DEBUG),
    ('dap|--help', DAP), ('dap|-h', DAP), ('help|dap', DAP), ('dap|no-such-file|--witness|no-such-file|--mode|no-mode|--ends|--choices|x|--help', DAP),
    ('run|--help', RUN), ('run|-h', RUN), ('help|run', RUN), ('run|no-such-file|--mode|no-mode|--help', RUN),
    ('serve|--help', SERVE), ('serve|-h', SERVE), ('help|serve', SERVE), ('serve|no-such-file|--port|1|--mode|no-mode|--help', SERVE),
    ('check|--help', CHECK), ('check|-h', CHECK), ('help|check', CHECK), ('check|a|--runs|5|-h', CHECK),
    ('check|a|--until|deadlock|--split=8|--workers|0|--piece|1023|--pieces|--help', CHECK), ('check|a|--modes|1000|-h', CHECK), ('check|a|--json|--help', CHECK),
    ('diagnose|a|--json|-h', DIAGNOSE),
    ('check|a|--outcomes|--states|16000000|--help', CHECK), ('check|a|--ends|--sample|65536|--seed=18446744073709551615|--explain|--group|-h', CHECK),
    ('verify|--help', VERIFY), ('verify|-h', VERIFY), ('help|verify', VERIFY), ('verify|a|b|--help', VERIFY),
    ('verify|a|b|--leaf|67108863|-h', VERIFY),
    ('words|--help', WORDS), ('words|-h', WORDS), ('help|words', WORDS), ('words|no-such-file|--choices|x|--mode|no-mode|--help', WORDS),
    ('words|no-such-file|--ends|--choices|x|-h', WORDS), ('picture|no-such-file|--ends|--help', PICTURE),
    ('c|--help', C), ('c|-h', C), ('help|c', C), ('c|no-such-file|--help', C),
    ('picture|--help', PICTURE), ('picture|-h', PICTURE), ('help|picture', PICTURE),
    ('picture|no-such-file|--choices|x|--words=w|--witness|w|--fuel|7|--mode|no-mode|--help', PICTURE),
    ('page|--help', PAGE), ('page|-h', PAGE), ('help|page', PAGE), ('page|no-such-file|--runs|7|--hide|--ends|--mode|no-mode|--help', PAGE))

NO_COMMAND = 'mpdbg <COMMAND>'
OF_DIAGNOSE, OF_TRACE, OF_DEBUG, OF_DAP, OF_RUN, OF_SERVE, OF_CHECK, OF_VERIFY, OF_WORDS, OF_C, OF_PICTURE, OF_PAGE = (
    f'mpdbg {rest}' for rest in ('diagnose [OPTIONS] <FILE>', 'trace [OPTIONS] <FILE>', 'debug [OPTIONS] <FILE>', 'dap [OPTIONS] <FILE>', 'run [OPTIONS] <FILE>',
                                 'serve [OPTIONS] --port <P> --clients <N> <FILE>', 'check [OPTIONS] <FILE>',
                                 'verify [OPTIONS] <FILE> <WITNESS>', 'words [OPTIONS] --choices <C> <FILE>', 'c [OPTIONS] <FILE>', 'picture [OPTIONS] <FILE>', 'page [OPTIONS] <FILE>'))
# What `serve` wants, where something that was given is named.
WANTED_OF_SERVE = 'mpdbg serve --port <P> --clients <N> <FILE>'
# And what `words` wants, with another flag and without.
WANTED_OF_WORDS = 'mpdbg words --choices <C> <FILE>'
ENDS_OF_WORDS, ENDS_OF_PICTURE = 'mpdbg words --choices <C> --ends <FILE>', 'mpdbg picture --ends <FILE>'


class Mistake(NamedTuple):
    """Words, parted by `|`, what is wrong with them, the usage that is shown, if one is, and a tip, if there is one."""
    words: str
    what: str
    usage: str = ''
    tip: str = ''

    @property
    def text(self):
        parts = [f'error: {self.what}', *[f'  tip: {self.tip}'] * bool(self.tip), *[f'Usage: {self.usage}'] * bool(self.usage)]
        return '\n\n'.join([*parts, "For more information, try '--help'.\n"])


def unknown(words, word, usage, tip=''):
    return Mistake(words, f"unexpected argument '{word}' found", usage, tip)


def hyphened(words, word, usage):
    """A word with a hyphen that is no option, where the command takes a word that may be meant."""
    return unknown(words, word, usage, f"to pass '{word}' as a value, use '-- {word}'")


def missing(words, names, usage):
    return Mistake(words, '\n  '.join(['the following required arguments were not provided:', *names]), usage)


def bad_choice(words, what, tip=''):
    """What is wrong with the value of an option that takes one of some words."""
    return Mistake(words, f'{what}\n  [possible values: deadlock]', tip=tip)


def bad_number(words, value, option, why, name='N'):
    return Mistake(words, f"invalid value '{value}' for '--{option} <{name}>': {why}")


NO_DIGIT, TOO_LARGE = 'invalid digit found in string', 'number too large to fit in target type'

MISTAKES = (
    # commands
    Mistake('trac', "unrecognized subcommand 'trac'", NO_COMMAND, "a similar subcommand exists: 'trace'"),
    Mistake('diagnos|a', "unrecognized subcommand 'diagnos'", NO_COMMAND, "a similar subcommand exists: 'diagnose'"),
    Mistake('help|diagnose|x', "unrecognized subcommand 'x'", OF_DIAGNOSE),
    Mistake('debgu|a', "unrecognized subcommand 'debgu'", NO_COMMAND, "a similar subcommand exists: 'debug'"),
    Mistake('Debug|a', "unrecognized subcommand 'Debug'", NO_COMMAND, "a similar subcommand exists: 'debug'"),
    Mistake('help|debug|x', "unrecognized subcommand 'x'", OF_DEBUG),
    Mistake('Dap|a', "unrecognized subcommand 'Dap'", NO_COMMAND, "a similar subcommand exists: 'dap'"),
    Mistake('dab|a', "unrecognized subcommand 'dab'", NO_COMMAND, "a similar subcommand exists: 'dap'"),
    Mistake('help|dap|x', "unrecognized subcommand 'x'", OF_DAP),
    Mistake('rum|a', "unrecognized subcommand 'rum'", NO_COMMAND, "a similar subcommand exists: 'run'"),
    Mistake('Run|a', "unrecognized subcommand 'Run'", NO_COMMAND, "a similar subcommand exists: 'run'"),
    Mistake('help|run|x', "unrecognized subcommand 'x'", OF_RUN),
    Mistake('serv|a', "unrecognized subcommand 'serv'", NO_COMMAND, "a similar subcommand exists: 'serve'"),
    Mistake('Serve|a', "unrecognized subcommand 'Serve'", NO_COMMAND, "a similar subcommand exists: 'serve'"),
    Mistake('help|serve|x', "unrecognized subcommand 'x'", OF_SERVE),
    Mistake('verfy|a|b', "unrecognized subcommand 'verfy'", NO_COMMAND, "a similar subcommand exists: 'verify'"),
    Mistake('word|a', "unrecognized subcommand 'word'", NO_COMMAND, "a similar subcommand exists: 'words'"),
    Mistake('help|words|x', "unrecognized subcommand 'x'", OF_WORDS),
    Mistake('C|a', "unrecognized subcommand 'C'", NO_COMMAND),
    Mistake('help|c|x', "unrecognized subcommand 'x'", OF_C),
    Mistake('pictur|a', "unrecognized subcommand 'pictur'", NO_COMMAND, "some similar subcommands exist: 'c', 'picture'"),
    Mistake('pixture|a', "unrecognized subcommand 'pixture'", NO_COMMAND, "a similar subcommand exists: 'picture'"),
    Mistake('pag|a', "unrecognized subcommand 'pag'", NO_COMMAND, "a similar subcommand exists: 'page'"),
    Mistake('help|page|x', "unrecognized subcommand 'x'", OF_PAGE),
    Mistake('help|picture|x', "unrecognized subcommand 'x'", OF_PICTURE),
    Mistake('a.mpd', "unrecognized subcommand 'a.mpd'", NO_COMMAND),
    Mistake('', "unrecognized subcommand ''", NO_COMMAND),
    Mistake('help|trac', "unrecognized subcommand 'trac'", NO_COMMAND),
    Mistake('help|trace|x', "unrecognized subcommand 'x'", OF_TRACE),
    unknown('--fly', '--fly', NO_COMMAND),
    unknown('-x', '-x', NO_COMMAND),
    unknown('--mode|buffered|trace|a', '--mode', NO_COMMAND, "'trace --mode' exists"),
    unknown('--strict|diagnose|a', '--strict', NO_COMMAND, "'diagnose --strict' exists"),
    unknown('--witness|w|debug|a', '--witness', NO_COMMAND, "'debug --witness' exists"),
    unknown('--ends|debug|a', '--ends', NO_COMMAND, "'debug --ends' exists"),
    unknown('--port|1|serve|a|--clients|1', '--port', NO_COMMAND, "'serve --port' exists"),
    unknown('--choices|0|words|a', '--choices', NO_COMMAND, "'words --choices' exists"),
    unknown('--words|w|picture|a', '--words', NO_COMMAND, "'picture --words' exists"),
    unknown('--ends|words|a|--choices|0', '--ends', NO_COMMAND, "'words --ends' exists"),
    unknown('--ends|picture|a', '--ends', NO_COMMAND, "'picture --ends' exists"),
    unknown('--|trace|a', 'trace', NO_COMMAND, "subcommand 'trace' exists; to use it, remove the '--' before it"),
    # files, and options that must be there
    missing('trace', ['<FILE>'], 'mpdbg trace <FILE>'),
    missing('diagnose', ['<FILE>'], 'mpdbg diagnose <FILE>'),
    missing('diagnose|--strict', ['<FILE>'], 'mpdbg diagnose --strict <FILE>'),
    missing('debug', ['<FILE>'], 'mpdbg debug <FILE>'),
    missing('debug|--witness|w', ['<FILE>'], 'mpdbg debug --witness <WITNESS> <FILE>'),
    missing('debug|--mode|buffered|--witness=w', ['<FILE>'], 'mpdbg debug --mode <M> --witness <WITNESS> <FILE>'),
    missing('debug|--choices|0|--ends', ['<FILE>'], 'mpdbg debug --choices <C> --ends <FILE>'),
    missing('run', ['<FILE>'], 'mpdbg run <FILE>'),
    missing('run|--mode|buffered', ['<FILE>'], 'mpdbg run --mode <M> <FILE>'),
    missing('serve', ['--port <P>', '--clients <N>', '<FILE>'], WANTED_OF_SERVE),
    missing('serve|a', ['--port <P>', '--clients <N>'], WANTED_OF_SERVE),
    missing('serve|a|--port|4000', ['--clients <N>'], WANTED_OF_SERVE),
    missing('serve|a|--clients=2', ['--port <P>'], WANTED_OF_SERVE),
    missing('serve|--port|4000|--clients|2', ['<FILE>'], WANTED_OF_SERVE),
    missing('serve|--port|4000|--|--clients', ['--clients <N>'], WANTED_OF_SERVE),
    missing('serve|a|--mode|buffered|--clients|2', ['--port <P>'], 'mpdbg serve --port <P> --clients <N> --mode <M> <FILE>'),
    missing('check', ['<FILE>'], 'mpdbg check <FILE>'),
    missing('check|--pieces', ['<FILE>'], 'mpdbg check --pieces <FILE>'),
    missing('check|--modes|4', ['<FILE>'], 'mpdbg check --modes <N> <FILE>'),
    missing('check|--until|deadlock', ['<FILE>'], 'mpdbg check --until <END> <FILE>'),
    missing('check|--ends', ['<FILE>'], 'mpdbg check --ends <FILE>'),
    missing('check|--outcomes|--states|5', ['<FILE>'], 'mpdbg check --outcomes --states <N> <FILE>'),
    missing('check|--sample|5|--seed|6', ['<FILE>'], 'mpdbg check --sample <N> --seed <S> <FILE>'),
    missing('check|--explain|--group', ['<FILE>'], 'mpdbg check --explain --group <FILE>'),
    missing('diagnose|--strict|--mode|buffered', ['<FILE>'], 'mpdbg diagnose --strict --mode <M> <FILE>'),
    missing('diagnose|--modes|1', ['<FILE>'], 'mpdbg diagnose --modes <N> <FILE>'),
    missing('verify', ['<FILE>', '<WITNESS>'], 'mpdbg verify <FILE> <WITNESS>'),
    missing('verify|a', ['<WITNESS>'], 'mpdbg verify <FILE> <WITNESS>'),
    missing('verify|a|--leaf|1', ['<WITNESS>'], 'mpdbg verify --leaf <N> <FILE> <WITNESS>'),
    missing('words', ['--choices <C>', '<FILE>'], WANTED_OF_WORDS),
    missing('words|a', ['--choices <C>'], WANTED_OF_WORDS),
    missing('words|--choices|0', ['<FILE>'], WANTED_OF_WORDS),
    missing('words|a|--fuel|5', ['--choices <C>'], 'mpdbg words --choices <C> --fuel <N> <FILE>'),
    missing('words|a|--ends', ['--choices <C>'], ENDS_OF_WORDS),
    missing('words|--ends|--choices|0', ['<FILE>'], ENDS_OF_WORDS),
    missing('c', ['<FILE>'], 'mpdbg c <FILE>'),
    missing('picture', ['<FILE>'], 'mpdbg picture <FILE>'),
    missing('dap', ['<FILE>'], 'mpdbg dap <FILE>'),
    missing('dap|--choices|0|--ends', ['<FILE>'], 'mpdbg dap --choices <C> --ends <FILE>'),
    missing('picture|--words|w', ['<FILE>'], 'mpdbg picture --words <WORDS> <FILE>'),
    missing('picture|--choices|0|--fuel|5', ['<FILE>'], 'mpdbg picture --choices <C> --fuel <N> <FILE>'),
    missing('picture|--ends', ['<FILE>'], ENDS_OF_PICTURE),
    missing('page', ['<FILE>'], 'mpdbg page <FILE>'),
    missing('page|--runs|5|--hide', ['<FILE>'], 'mpdbg page --runs <N> --hide <FILE>'),
    unknown('trace|a|b', 'b', OF_TRACE),
    unknown('diagnose|a|b', 'b', OF_DIAGNOSE),
    unknown('diagnose|a|--strict|b', 'b', OF_DIAGNOSE),
    unknown('debug|a|b', 'b', OF_DEBUG),
    unknown('debug|a|--witness|--|b', 'b', OF_DEBUG),
    unknown('debug|a|--choices|0|1', '1', OF_DEBUG),
    unknown('debug|a|--ends|b', 'b', OF_DEBUG),
    unknown('dap|a|b', 'b', OF_DAP),
    hyphened('dap|a|--width=80', '--width', 'mpdbg dap <FILE>'),
    unknown('run|a|b', 'b', OF_RUN),
    unknown('serve|a|b|--port|1|--clients|1', 'b', OF_SERVE),
    unknown('check|a|b', 'b', OF_CHECK),
    unknown('diagnose|a|--strict|true', 'true', OF_DIAGNOSE),
    unknown('verify|a|b|c', 'c', OF_VERIFY),
    unknown('words|a|b|--choices|0', 'b', OF_WORDS),
    unknown('words|a|--choices|0|1', '1', OF_WORDS),
    unknown('c|a|b', 'b', OF_C),
    unknown('picture|a|b', 'b', OF_PICTURE),
    unknown('page|a|b', 'b', OF_PAGE),
    unknown('words|a|--choices|0|--ends|b', 'b', OF_WORDS),
    unknown('picture|a|--ends|b', 'b', OF_PICTURE),
    # options
    unknown('trace|a|--mod|buffered', '--mod', 'mpdbg trace --mode <M> <FILE>', "a similar argument exists: '--mode'"),
    unknown('diagnose|a|--stric', '--stric', 'mpdbg diagnose --strict <FILE>', "a similar argument exists: '--strict'"),
    unknown('diagnose|a|--runs|5', '--runs', 'mpdbg diagnose --ranks <N[-M]> <FILE>', "a similar argument exists: '--ranks'"),
    hyphened('diagnose|a|-s', '-s', OF_DIAGNOSE),
    hyphened('trace|a|--strict', '--strict', 'mpdbg trace <FILE>'),
    unknown('debug|a|--witnes|w', '--witnes', 'mpdbg debug --witness <WITNESS> <FILE>', "a similar argument exists: '--witness'"),
    unknown('debug|a|--choice|0', '--choice', 'mpdbg debug --choices <C> <FILE>', "a similar argument exists: '--choices'"),
    unknown('debug|a|--end', '--end', 'mpdbg debug --ends <FILE>', "a similar argument exists: '--ends'"),
    unknown('debug|a|--laid_witness|w', '--laid_witness', 'mpdbg debug --witness <WITNESS> <FILE>', "a similar argument exists: '--witness'"),
    unknown('debug|--witness|w|a|--mod|buffered', '--mod', 'mpdbg debug --witness <WITNESS> --mode <M> <FILE>', "a similar argument exists: '--mode'"),
    unknown('check|a|--witnes', '--witnes', 'mpdbg check --witness <FILE>', "a similar argument exists: '--witness'"),
    unknown('check|a|--trap', '--trap', 'mpdbg check --traps <FILE>', "a similar argument exists: '--traps'"),
    unknown('check|a|--splits|2', '--splits', 'mpdbg check --split <K> <FILE>', "a similar argument exists: '--split'"),
    unknown('check|a|--worker|2', '--worker', 'mpdbg check --workers <N> <FILE>', "a similar argument exists: '--workers'"),
    unknown('check|a|--peice|2', '--peice', 'mpdbg check --piece <N> <FILE>', "a similar argument exists: '--piece'"),
    unknown('check|a|--mods|4', '--mods', 'mpdbg check --modes <N> <FILE>', "a similar argument exists: '--modes'"),
    unknown('check|a|--untill|deadlock', '--untill', 'mpdbg check --until <END> <FILE>', "a similar argument exists: '--until'"),
    unknown('check|a|--end', '--end', 'mpdbg check --ends <FILE>', "a similar argument exists: '--ends'"),
    unknown('check|a|--outcome', '--outcome', 'mpdbg check --outcomes <FILE>', "a similar argument exists: '--outcomes'"),
    unknown('check|a|--state|5', '--state', 'mpdbg check --states <N> <FILE>', "a similar argument exists: '--states'"),
    unknown('check|a|--samples|5', '--samples', 'mpdbg check --sample <N> <FILE>', "a similar argument exists: '--sample'"),
    unknown('check|a|--sed|5', '--sed', 'mpdbg check --seed <S> <FILE>', "a similar argument exists: '--seed'"),
    unknown('check|a|--explian', '--explian', 'mpdbg check --explain <FILE>', "a similar argument exists: '--explain'"),
    unknown('check|a|--jso', '--jso', 'mpdbg check --json <FILE>', "a similar argument exists: '--json'"),
    unknown('check|a|--groups', '--groups', 'mpdbg check --group <FILE>', "a similar argument exists: '--group'"),
    hyphened('diagnose|a|--fuel|5', '--fuel', 'mpdbg diagnose <FILE>'),
    hyphened('diagnose|a|--complete', '--complete', 'mpdbg diagnose <FILE>'),
    unknown('verify|a|b|--leafs|1', '--leafs', 'mpdbg verify --leaf <N> <FILE> <WITNESS>', "a similar argument exists: '--leaf'"),
    unknown('words|a|--choice|0', '--choice', WANTED_OF_WORDS, "a similar argument exists: '--choices'"),
    unknown('words|a|--choices|0|--end', '--end', ENDS_OF_WORDS, "a similar argument exists: '--ends'"),
    unknown('picture|a|--end', '--end', ENDS_OF_PICTURE, "a similar argument exists: '--ends'"),
    unknown('run|a|--mod|buffered', '--mod', 'mpdbg run --mode <M> <FILE>', "a similar argument exists: '--mode'"),
    unknown('debug|a|--runs|5', '--runs', 'mpdbg debug --ranks <N> <FILE>', "a similar argument exists: '--ranks'"),
    hyphened('debug|a|--laid=w', '--laid', 'mpdbg debug <FILE>'),
    hyphened('debug|a|-w|w', '-w', OF_DEBUG),
    hyphened('debug|a|--witness|-1', '-1', OF_DEBUG),
    hyphened('debug|a|--choices|-1', '-1', OF_DEBUG),
    hyphened('debug|a|-c|0', '-c', OF_DEBUG),
    unknown('run|a|--witness', '--witness', 'mpdbg run --wide <FILE>', "a similar argument exists: '--wide'"),
    hyphened('run|a|--port|1', '--port', 'mpdbg run <FILE>'),
    hyphened('run|a|-m', '-m', OF_RUN),
    unknown('serve|a|--prot|4000|--clients|2', '--prot', WANTED_OF_SERVE, "a similar argument exists: '--port'"),
    unknown('serve|--port|4000|a|--client|2', '--client', WANTED_OF_SERVE, "a similar argument exists: '--clients'"),
    unknown('serve|a|--runs|5', '--runs', 'mpdbg serve --port <P> --clients <N> --ranks <N> <FILE>', "a similar argument exists: '--ranks'"),
    hyphened('serve|a|-p|4000', '-p', OF_SERVE),
    hyphened('serve|a|--port|-1', '-1', OF_SERVE),
    hyphened('check|a|--clients|2', '--clients', 'mpdbg check <FILE>'),
    hyphened('check|a|-k|2', '-k', OF_CHECK),
    hyphened('trace|a|-m', '-m', OF_TRACE),
    hyphened('trace|-x', '-x', OF_TRACE),
    hyphened('trace|--version', '--version', OF_TRACE),
    hyphened('trace|a|--witness', '--witness', 'mpdbg trace <FILE>'),
    hyphened('trace|a|--pieces', '--pieces', 'mpdbg trace <FILE>'),
    hyphened('run|a|--workers|2', '--workers', 'mpdbg run <FILE>'),
    hyphened('verify|a|b|--split|2', '--split', 'mpdbg verify <FILE> <WITNESS>'),
    unknown('verify|a|b|--runs|1', '--runs', 'mpdbg verify --ranks <N> <FILE> <WITNESS>', "a similar argument exists: '--ranks'"),
    hyphened('check|a|--runs|-1', '-1', OF_CHECK),
    hyphened('check|a|--split|-1', '-1', OF_CHECK),
    hyphened('check|a|--modes|-1', '-1', OF_CHECK),
    hyphened('check|a|--sample|-1', '-1', OF_CHECK),
    hyphened('check|a|--states|-1', '-1', OF_CHECK),
    hyphened('check|a|--seed|-1', '-1', OF_CHECK),
    hyphened('verify|a|b|--leaf|-1', '-1', OF_VERIFY),
    hyphened('words|a|--choices|-1', '-1', OF_WORDS),
    hyphened('words|a|-c|0', '-c', OF_WORDS),
    unknown('words|a|--runs|5', '--runs', 'mpdbg words --choices <C> --ranks <N> <FILE>', "a similar argument exists: '--ranks'"),
    hyphened('c|a|--mode|buffered', '--mode', 'mpdbg c <FILE>'),
    hyphened('c|a|-c', '-c', OF_C),
    unknown('picture|a|--word|w', '--word', 'mpdbg picture --words <WORDS> <FILE>', "a similar argument exists: '--words'"),
    unknown('picture|a|--laid_witness|w', '--laid_witness', 'mpdbg picture --witness <WITNESS> <FILE>', "a similar argument exists: '--witness'"),
    unknown('picture|a|--runs|5', '--runs', 'mpdbg picture --ranks <N> <FILE>', "a similar argument exists: '--ranks'"),
    unknown('page|a|--hid', '--hid', 'mpdbg page --hide <FILE>', "a similar argument exists: '--hide'"),
    hyphened('picture|a|-c|0', '-c', OF_PICTURE),
    hyphened('trace|a|--ends', '--ends', 'mpdbg trace <FILE>'),
    hyphened('run|a|--echo', '--echo', 'mpdbg run <FILE>'),
    hyphened('debug|a|--width|-1', '-1', OF_DEBUG),
    hyphened('trace|a|--view', '--view', 'mpdbg trace <FILE>'),
    Mistake('trace|a|--mode', "a value is required for '--mode <M>' but none was supplied"),
    Mistake('diagnose|a|--mode|--strict', "a value is required for '--mode <M>' but none was supplied"),
    Mistake('diagnose|a|--strict|--strict', "the argument '--strict' cannot be used multiple times", OF_DIAGNOSE),
    Mistake('diagnose|a|--strict=true', "unexpected value 'true' for '--strict' found; no more were expected", 'mpdbg diagnose --strict <FILE>'),
    Mistake('diagnose|a|--mode=b|--mode=b', "the argument '--mode <M>' cannot be used multiple times", OF_DIAGNOSE),
    Mistake('diagnose|a|--modes', "a value is required for '--modes <N>' but none was supplied"),
    Mistake('diagnose|a|--modes=1|--modes=1', "the argument '--modes <N>' cannot be used multiple times", OF_DIAGNOSE),
    Mistake('check|a|--fuel', "a value is required for '--fuel <N>' but none was supplied"),
    Mistake('trace|a|--mode|buffered|--mode=buffered', "the argument '--mode <M>' cannot be used multiple times", OF_TRACE),
    Mistake('debug|a|--mode', "a value is required for '--mode <M>' but none was supplied"),
    Mistake('debug|a|--witness', "a value is required for '--witness <WITNESS>' but none was supplied"),
    Mistake('debug|a|--choices|--ends', "a value is required for '--choices <C>' but none was supplied"),
    Mistake('debug|a|--choices|0|--choices=0', "the argument '--choices <C>' cannot be used multiple times", OF_DEBUG),
    Mistake('debug|a|--ends|--ends', "the argument '--ends' cannot be used multiple times", OF_DEBUG),
    Mistake('trace|a|--echo|--echo', "the argument '--echo' cannot be used multiple times", OF_TRACE),
    Mistake('debug|a|--echo|--echo', "the argument '--echo' cannot be used multiple times", OF_DEBUG),
    Mistake('debug|a|--width=80|--width=80', "the argument '--width <N>' cannot be used multiple times", OF_DEBUG),
    Mistake('debug|a|--view|--view', "the argument '--view' cannot be used multiple times", OF_DEBUG),
    Mistake('debug|a|--view=1', "unexpected value '1' for '--view' found; no more were expected", 'mpdbg debug --view <FILE>'),
    Mistake('debug|a|--width', "a value is required for '--width <N>' but none was supplied"),
    Mistake('trace|a|--echo=1', "unexpected value '1' for '--echo' found; no more were expected", 'mpdbg trace --echo <FILE>'),
    Mistake('debug|a|--ends=true', "unexpected value 'true' for '--ends' found; no more were expected", 'mpdbg debug --ends <FILE>'),
    Mistake('debug|a|--witness|--mode|buffered', "a value is required for '--witness <WITNESS>' but none was supplied"),
    Mistake('debug|--witness|--|a', "a value is required for '--witness <WITNESS>' but none was supplied"),
    Mistake('debug|a|--witness|w|--witness=', "the argument '--witness <WITNESS>' cannot be used multiple times", OF_DEBUG),
    Mistake('debug|a|--mode=b|--mode|b', "the argument '--mode <M>' cannot be used multiple times", OF_DEBUG),
    Mistake('run|a|--mode', "a value is required for '--mode <M>' but none was supplied"),
    Mistake('run|a|--mode=b|--mode|b', "the argument '--mode <M>' cannot be used multiple times", OF_RUN),
    Mistake('serve|a|--clients|2|--port', "a value is required for '--port <P>' but none was supplied"),
    Mistake('serve|a|--port|--clients|2', "a value is required for '--port <P>' but none was supplied"),
    Mistake('serve|a|--port|4000|--clients|2|--port=4000', "the argument '--port <P>' cannot be used multiple times", OF_SERVE),
    Mistake('serve|a|--clients=2|--clients=0', "the argument '--clients <N>' cannot be used multiple times", OF_SERVE),
    Mistake('verify|a|b|--mode=c|--mode=c', "the argument '--mode <M>' cannot be used multiple times", OF_VERIFY),
    Mistake('check|a|--runs|5|--runs=5', "the argument '--runs <N>' cannot be used multiple times", OF_CHECK),
    Mistake('check|a|--split', "a value is required for '--split <K>' but none was supplied"),
    Mistake('check|a|--modes', "a value is required for '--modes <N>' but none was supplied"),
    Mistake('check|a|--piece|--pieces', "a value is required for '--piece <N>' but none was supplied"),
    Mistake('check|a|--sample', "a value is required for '--sample <N>' but none was supplied"),
    Mistake('check|a|--states|--outcomes', "a value is required for '--states <N>' but none was supplied"),
    Mistake('check|a|--seed|--sample|5', "a value is required for '--seed <S>' but none was supplied"),
    Mistake('verify|a|b|--leaf', "a value is required for '--leaf <N>' but none was supplied"),
    Mistake('words|a|--choices', "a value is required for '--choices <C>' but none was supplied"),
    Mistake('words|a|--choices|--fuel|5', "a value is required for '--choices <C>' but none was supplied"),
    Mistake('check|a|--workers|4|--workers=4', "the argument '--workers <N>' cannot be used multiple times", OF_CHECK),
    Mistake('check|a|--modes|4|--modes=4', "the argument '--modes <N>' cannot be used multiple times", OF_CHECK),
    Mistake('check|a|--piece=1|--piece=2', "the argument '--piece <N>' cannot be used multiple times", OF_CHECK),
    Mistake('check|a|--until=deadlock|--until=deadlock', "the argument '--until <END>' cannot be used multiple times", OF_CHECK),
    Mistake('check|a|--sample=5|--sample=5', "the argument '--sample <N>' cannot be used multiple times", OF_CHECK),
    Mistake('check|a|--seed|5|--seed=6', "the argument '--seed <S>' cannot be used multiple times", OF_CHECK),
    Mistake('check|a|--ends|--ends', "the argument '--ends' cannot be used multiple times", OF_CHECK),
    Mistake('check|a|--explain|--explain', "the argument '--explain' cannot be used multiple times", OF_CHECK),
    Mistake('check|a|--group|--group', "the argument '--group' cannot be used multiple times", OF_CHECK),
    Mistake('check|a|--outcomes|--outcomes', "the argument '--outcomes' cannot be used multiple times", OF_CHECK),
    Mistake('check|a|--states=5|--states=5', "the argument '--states <N>' cannot be used multiple times", OF_CHECK),
    Mistake('check|a|--outcomes=true', "unexpected value 'true' for '--outcomes' found; no more were expected", 'mpdbg check --outcomes <FILE>'),
    Mistake('check|a|--ends=true', "unexpected value 'true' for '--ends' found; no more were expected", 'mpdbg check --ends <FILE>'),
    Mistake('check|a|--explain=1', "unexpected value '1' for '--explain' found; no more were expected", 'mpdbg check --explain <FILE>'),
    Mistake('check|a|--json|--json', "the argument '--json' cannot be used multiple times", OF_CHECK),
    Mistake('diagnose|a|--json|--json', "the argument '--json' cannot be used multiple times", OF_DIAGNOSE),
    Mistake('check|a|--json=1', "unexpected value '1' for '--json' found; no more were expected", 'mpdbg check --json <FILE>'),
    Mistake('diagnose|a|--json=1', "unexpected value '1' for '--json' found; no more were expected", 'mpdbg diagnose --json <FILE>'),
    Mistake('check|a|--group=a', "unexpected value 'a' for '--group' found; no more were expected", 'mpdbg check --group <FILE>'),
    Mistake('verify|a|b|--leaf|1|--leaf=1', "the argument '--leaf <N>' cannot be used multiple times", OF_VERIFY),
    Mistake('words|a|--choices|0|--choices=0', "the argument '--choices <C>' cannot be used multiple times", OF_WORDS),
    Mistake('words|a|--choices|--ends', "a value is required for '--choices <C>' but none was supplied"),
    Mistake('picture|a|--choices|--ends', "a value is required for '--choices <C>' but none was supplied"),
    Mistake('words|a|--choices|0|--ends|--ends', "the argument '--ends' cannot be used multiple times", OF_WORDS),
    Mistake('picture|a|--ends|--ends', "the argument '--ends' cannot be used multiple times", OF_PICTURE),
    Mistake('picture|a|--plain|--plain', "the argument '--plain' cannot be used multiple times", OF_PICTURE),
    Mistake('picture|a|--large|--large', "the argument '--large' cannot be used multiple times", OF_PICTURE),
    Mistake('page|a|--hide|--hide', "the argument '--hide' cannot be used multiple times", OF_PAGE),
    Mistake('page|a|--hide=true', "unexpected value 'true' for '--hide' found; no more were expected", 'mpdbg page --hide <FILE>'),
    Mistake('page|a|--runs', "a value is required for '--runs <N>' but none was supplied"),
    Mistake('words|a|--choices|0|--ends=true', "unexpected value 'true' for '--ends' found; no more were expected", ENDS_OF_WORDS),
    Mistake('picture|a|--ends=true', "unexpected value 'true' for '--ends' found; no more were expected", ENDS_OF_PICTURE),
    Mistake('picture|a|--words', "a value is required for '--words <WORDS>' but none was supplied"),
    Mistake('picture|a|--witness|--words|w', "a value is required for '--witness <WITNESS>' but none was supplied"),
    Mistake('picture|a|--choices|0|--choices=1', "the argument '--choices <C>' cannot be used multiple times", OF_PICTURE),
    Mistake('picture|a|--words=w|--words=w', "the argument '--words <WORDS>' cannot be used multiple times", OF_PICTURE),
    Mistake('check|a|--pieces|--pieces', "the argument '--pieces' cannot be used multiple times", OF_CHECK),
    Mistake('check|a|--pieces=5', "unexpected value '5' for '--pieces' found; no more were expected", 'mpdbg check --pieces <FILE>'),
    Mistake('diagnose|a|--strict=1', "unexpected value '1' for '--strict' found; no more were expected", 'mpdbg diagnose --strict <FILE>'),
    Mistake('diagnose|a|--mode', "a value is required for '--mode <M>' but none was supplied"),
    Mistake('diagnose|a|--mode=b|--mode|b', "the argument '--mode <M>' cannot be used multiple times", OF_DIAGNOSE),
    Mistake('check|a|--witness|--witness', "the argument '--witness' cannot be used multiple times", OF_CHECK),
    Mistake('check|a|--traps|--traps', "the argument '--traps' cannot be used multiple times", OF_CHECK),
    Mistake('check|a|--traps=true', "unexpected value 'true' for '--traps' found; no more were expected", 'mpdbg check --traps <FILE>'),
    Mistake('check|a|--witness=true', "unexpected value 'true' for '--witness' found; no more were expected", 'mpdbg check --witness <FILE>'),
    # ranks
    missing('c|--ranks|2', ['<FILE>'], 'mpdbg c --ranks <N> <FILE>'),
    missing('diagnose|--ranks|2-5', ['<FILE>'], 'mpdbg diagnose --ranks <N[-M]> <FILE>'),
    unknown('trace|a|--rank|2', '--rank', 'mpdbg trace --ranks <N> <FILE>', "a similar argument exists: '--ranks'"),
    unknown('c|a|--rank|2', '--rank', 'mpdbg c --ranks <N> <FILE>', "a similar argument exists: '--ranks'"),
    Mistake('run|a|--ranks', "a value is required for '--ranks <N>' but none was supplied"),
    Mistake('diagnose|a|--ranks', "a value is required for '--ranks <N[-M]>' but none was supplied"),
    Mistake('c|a|--ranks|2|--ranks=2', "the argument '--ranks <N>' cannot be used multiple times", OF_C),
    Mistake('diagnose|a|--ranks|2|--ranks=2', "the argument '--ranks <N[-M]>' cannot be used multiple times", OF_DIAGNOSE),
    # the words of --until
    bad_choice('check|a|--until|trap', "invalid value 'trap' for '--until <END>'"),
    bad_choice('check|a|--until=Deadlock', "invalid value 'Deadlock' for '--until <END>'", "a similar value exists: 'deadlock'"),
    bad_choice('check|a|--until', "a value is required for '--until <END>' but none was supplied"),
    bad_choice('check|a|--until=', "a value is required for '--until <END>' but none was supplied"),
    # numbers
    bad_number('trace|a|--ranks|0', '0', 'ranks', '0 is not in 1..=16'),
    bad_number('debug|a|--width|19', '19', 'width', '19 is not in 20..=1000'),
    bad_number('debug|a|--width=1001', '1001', 'width', '1001 is not in 20..=1000'),
    bad_number('debug|a|--height|9', '9', 'height', '9 is not in 10..=1000'),
    bad_number('debug|a|--height=1001', '1001', 'height', '1001 is not in 10..=1000'),
    bad_number('debug|a|--width=', '', 'width', 'cannot parse integer from empty string'),
    bad_number('debug|a|--ranks=17', '17', 'ranks', '17 is not in 1..=16'),
    bad_number('run|a|--ranks|x', 'x', 'ranks', NO_DIGIT),
    bad_number('serve|a|--port|1|--clients|2|--ranks|0', '0', 'ranks', '0 is not in 1..=16'),
    bad_number('check|a|--ranks=', '', 'ranks', 'cannot parse integer from empty string'),
    bad_number('check|a|--ranks|2-5', '2-5', 'ranks', NO_DIGIT),
    bad_number('verify|a|b|--ranks|17', '17', 'ranks', '17 is not in 1..=16'),
    bad_number('words|a|--choices|0|--ranks|ten', 'ten', 'ranks', NO_DIGIT),
    bad_number('c|a|--ranks|1.5', '1.5', 'ranks', NO_DIGIT),
    bad_number('picture|a|--ranks|99999999999999999999', '99999999999999999999', 'ranks', TOO_LARGE),
    bad_number('serve|a|--port|0|--clients|2', '0', 'port', '0 is not in 1..=65535', 'P'),
    bad_number('serve|a|--port=65536|--clients|2', '65536', 'port', '65536 is not in 1..=65535', 'P'),
    bad_number('serve|a|--port|ten|--clients|2', 'ten', 'port', NO_DIGIT, 'P'),
    bad_number('serve|a|--port=|--clients|2', '', 'port', 'cannot parse integer from empty string', 'P'),
    bad_number('serve|a|--port=0', '0', 'port', '0 is not in 1..=65535', 'P'),
    bad_number('serve|a|--port|4000|--clients|0', '0', 'clients', '0 is not in 1..=16'),
    bad_number('serve|a|--port|4000|--clients=17', '17', 'clients', '17 is not in 1..=16'),
    bad_number('check|a|--runs|0', '0', 'runs', '0 is not in 1..=65536'),
    bad_number('check|a|--runs=65537', '65537', 'runs', '65537 is not in 1..=65536'),
    bad_number('check|a|--fuel|0', '0', 'fuel', '0 is not in 1..=1000000'),
    bad_number('check|a|--fuel|1000001', '1000001', 'fuel', '1000001 is not in 1..=1000000'),
    bad_number('check|a|--fuel|ten', 'ten', 'fuel', NO_DIGIT),
    bad_number('check|a|--fuel|1.5', '1.5', 'fuel', NO_DIGIT),
    bad_number('check|a|--split|9', '9', 'split', '9 is not in 0..=8', 'K'),
    bad_number('check|a|--split=two', 'two', 'split', NO_DIGIT, 'K'),
    bad_number('check|a|--workers|1001', '1001', 'workers', '1001 is not in 0..=1000'),
    bad_number('check|a|--workers=', '', 'workers', 'cannot parse integer from empty string'),
    bad_number('check|a|--modes|1001', '1001', 'modes', '1001 is not in 0..=1000'),
    bad_number('diagnose|a|--modes|1001', '1001', 'modes', '1001 is not in 0..=1000'), bad_number('diagnose|a|--modes=x', 'x', 'modes', NO_DIGIT),
    bad_number('check|a|--modes=-1', '-1', 'modes', NO_DIGIT),
    bad_number('check|a|--modes|x', 'x', 'modes', NO_DIGIT),
    bad_number('check|a|--piece|1024', '1024', 'piece', '1024 is not in 0..=1023'),
    bad_number('check|a|--piece=99999999999999999999', '99999999999999999999', 'piece', TOO_LARGE),
    bad_number('check|a|--states|0', '0', 'states', '0 is not in 1..=16000000'),
    bad_number('check|a|--states=16000001', '16000001', 'states', '16000001 is not in 1..=16000000'),
    bad_number('check|a|--states|many', 'many', 'states', NO_DIGIT),
    bad_number('check|a|--sample|0', '0', 'sample', '0 is not in 1..=65536'),
    bad_number('check|a|--sample=65537', '65537', 'sample', '65537 is not in 1..=65536'),
    bad_number('check|a|--sample|ten', 'ten', 'sample', NO_DIGIT),
    bad_number('check|a|--seed|18446744073709551616', '18446744073709551616', 'seed', TOO_LARGE, 'S'),
    bad_number('check|a|--seed=-1', '-1', 'seed', NO_DIGIT, 'S'),
    bad_number('check|a|--seed=', '', 'seed', 'cannot parse integer from empty string', 'S'),
    bad_number('verify|a|b|--leaf|67108864', '67108864', 'leaf', '67108864 is not in 0..=67108863'),
    bad_number('verify|a|b|--leaf=one', 'one', 'leaf', NO_DIGIT),
    bad_number('words|a|--choices|0|--fuel|0', '0', 'fuel', '0 is not in 1..=1000000'),
    bad_number('words|a|--fuel=1000001', '1000001', 'fuel', '1000001 is not in 1..=1000000'),
    bad_number('picture|a|--fuel|0', '0', 'fuel', '0 is not in 1..=1000000'),
    bad_number('page|a|--runs|0', '0', 'runs', '0 is not in 1..=1000'),
    bad_number('page|a|--runs=1001', '1001', 'runs', '1001 is not in 1..=1000'),
    bad_number('page|a|--fuel=1000001', '1000001', 'fuel', '1000001 is not in 1..=1000000'),
    bad_number('page|a|--states|0', '0', 'states', '0 is not in 1..=16000000'),
    bad_number('picture|a|--fuel=1000001', '1000001', 'fuel', '1000001 is not in 1..=1000000'),
    bad_number('check|a|--runs=', '', 'runs', 'cannot parse integer from empty string'),
    bad_number('check|a|--runs|99999999999999999999', '99999999999999999999', 'runs', TOO_LARGE))

# Words that are wrong, behind a mode that is none: `{FILE}` is there.
BEFORE_A_MODE = hyphened('trace|{FILE}|--mode|none|--fly', '--fly', 'mpdbg trace --mode <M> <FILE>')
# A word that is no text.
NO_TEXT = Mistake('', 'invalid UTF-8 was detected in one or more arguments')
