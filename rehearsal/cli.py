"""The command line: what each command takes, does and answers."""
import argparse
from pathlib import Path
import sys

from rehearsal import picture
from rehearsal.explain.show import explained
from rehearsal.machine.build import ROOT, CannotRun
from rehearsal.machine.memory import LostTrack
from rehearsal.machine.programs import Programs
from rehearsal.script.codec import Refused
from rehearsal.script.header import script_refusal
from rehearsal.source import read_source
from rehearsal.text.assemble import BadText
from rehearsal.text.disassemble import disassemble

DONE, CANNOT, BAD_TEXT, REFUSED, BROKEN = range(5)
DEMO = ROOT / "examples" / "pit_goes_wrong.script"

ABOUT = "Rehearses a script on the proved machine, and says in words what came of it."
USAGE = "rehearse FILE [--state | --plain]\n       rehearse COMMAND ...\n       rehearse COMMAND --help"
STATUSES = """\
exit status:
  0  done: a listing is printed or a file is written
  1  not done: bad usage, a file that cannot be read or written, programs that cannot be built
  2  bad text: each error stands on a line of its own, FILE:LINE:COLUMN
  3  the script is refused; its number and the reason are printed
  4  picture: done, and a premise of demand 3 is broken
"""
SUMMARIES = {
    "demo": "the circuit's scenario: two loops' tasks, of which the pit's goes wrong",
    "run": "run a script and explain each line of its listing; 'rehearse FILE' is the same",
    "assemble": "a text as a binary script",
    "disassemble": "a good script as text; of a text, its plain form",
    "picture": "a page that shows who can touch which physical page",
}
HELP = {
    "file": "a script, binary or text; - is standard input",
    "form": "take FILE as this; without it a file with a byte 0 is binary, as every good script is",
    "state": "below each line, what changed in TLB, cache, controller and registers",
    "plain": "the listing alone, as the runner prints it",
    "text": "where the text goes; without it, it is printed",
    "hidden": "physical bytes from A up to B, to be kept from the current task; may be given several times",
    "after": "the state after this event's number, or 'start'; without it after the last event",
}


class Parser(argparse.ArgumentParser):
    """Help ends with the exit statuses. Bad usage has status 1: argparse's own is bad text's."""

    def __init__(self, **options):
        super().__init__(epilog=STATUSES, formatter_class=argparse.RawDescriptionHelpFormatter, **options)

    def error(self, message):
        self.print_usage(sys.stderr)
        self.exit(CANNOT, f"{self.prog}: {message}\n")


def make_parser():
    parser = Parser(prog="rehearse", description=ABOUT, usage=USAGE)
    commands = parser.add_subparsers(metavar="COMMAND", required=True, prog="rehearse")
    add_views(add_command(commands, "demo", run_demo))
    add_views(add_file(add_command(commands, "run", run_file)))
    assembler = add_file(add_command(commands, "assemble", run_assemble))
    assembler.add_argument("-o", "--output", required=True, metavar="SCRIPT")
    disassembler = add_file(add_command(commands, "disassemble", run_disassemble))
    disassembler.add_argument("-o", "--output", metavar="TEXT", help=HELP["text"])
    add_picture(add_file(add_command(commands, "picture", run_picture)))
    return parser


def add_command(commands, name, act):
    parser = commands.add_parser(name, help=SUMMARIES[name], description=SUMMARIES[name])
    parser.set_defaults(act=act)
    return parser


def add_file(parser):
    parser.add_argument("file", metavar="FILE", help=HELP["file"])
    parser.add_argument("--as", dest="form", choices=("text", "binary"), help=HELP["form"])
    return parser


def add_views(parser):
    views = parser.add_mutually_exclusive_group()
    views.add_argument("--state", action="store_true", help=HELP["state"])
    views.add_argument("--plain", action="store_true", help=HELP["plain"])


def add_picture(parser):
    parser.add_argument("-o", "--output", required=True, metavar="PAGE.html")
    parser.add_argument("--after", type=picture.event_index, metavar="EVENT", help=HELP["after"])
    several = {"action": "append", "default": []}
    parser.add_argument("--hidden", type=picture.hidden_range, metavar="A..B", help=HELP["hidden"], **several)


def main(arguments, programs=None):
    """Runs a command and answers its exit status."""
    options = make_parser().parse_args(with_command(arguments))
    try:
        return options.act(options, programs or Programs())
    except BadText as bad:
        return complain(BAD_TEXT, *(f"{options.file}:{error}" for error in bad.errors))
    except Refused as refused:
        return complain(REFUSED, f"refused {refused.refusal.number}: {refused.refusal.reason}")
    except (CannotRun, LostTrack) as error:
        return complain(CANNOT, f"rehearse: {error}")
    except BrokenPipeError:
        raise
    except OSError as error:
        return complain(CANNOT, f"rehearse: {error.filename}: {error.strerror}")


def with_command(arguments):
    """A file in the place of a command is run."""
    first = next((word for word in arguments if not word.startswith("-") or word == "-"), None)
    return arguments if first is None or first in SUMMARIES else ["run", *arguments]


def complain(status, *lines):
    for line in lines:
        print(line, file=sys.stderr)
    return status


# ---- the commands

def run_demo(options, programs):
    options.file, options.form = str(DEMO), "text"
    return run_file(options, programs)


def run_file(options, programs):
    source = read_source(options.file, options.form)
    if options.plain:
        return run_plain(source, programs)
    print(explained(source, run_good(source, programs), options.state), end="")
    return DONE


def run_plain(source, programs):
    listing = programs.listing(source.script)
    print(listing, end="")
    return REFUSED if listing.startswith("refused ") else DONE


def run_good(source, programs):
    """The run of a script. A refused one raises `Refused`; that the number is the runner's own is looked at."""
    refusal = script_refusal(source.script)
    run = programs.run(source.script, 0 if refusal else len(source.decoded().events))
    if run.refused != (refusal.number if refusal else None):
        raise CannotRun(f"the runner says '{run.listing.splitlines()[-1]}', which is not expected of this script")
    if refusal:
        raise Refused(refusal)
    return run


def run_assemble(options, programs):
    source = read_source(options.file, options.form)
    Path(options.output).write_bytes(source.script)
    return DONE


def run_disassemble(options, programs):
    text = disassemble(read_source(options.file, options.form).decoded())
    if options.output:
        Path(options.output).write_text(text, encoding="utf-8")
    else:
        print(text, end="")
    return DONE


def run_picture(options, programs):
    source = read_source(options.file, options.form)
    drawn = picture.draw(source, run_good(source, programs), options.hidden, options.after)
    Path(options.output).write_text(drawn.html, encoding="utf-8")
    print(drawn.summary)
    return BROKEN if drawn.broken else DONE
