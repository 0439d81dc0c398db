"""What a run came to, if its words seem to ask for something else."""

from lib.explained.files import help_with_made_program
from lib.explained.traps import help_with_trap
from lib.images import PAGE, PER_PAGE
from lib.program import FIELDS

LIMIT, CONSOLE = 8, FIELDS["console"].high


def help_with_cuts(call, outcome):
    """Cuts that are listed after the end of the run, or after its limit. They fall in their order, so the report counts them."""
    cuts = call.numbers("cuts")
    if outcome.cuts >= len(cuts):
        return ""
    why = "the limit came before" if outcome.status == LIMIT else "the run had ended by"
    return f"{len(cuts) - outcome.cuts} of {len(cuts)} cuts did not fall: {why} cycle {cuts[outcome.cuts]}"


def help_with_tears(call, _outcome):
    """Tears that no cut has. That of --save takes the first one after those of the listed cuts."""
    if "tears" not in call.options or "cuts" in call.options or "save" in call.options:
        return ""
    return "--tears changed nothing: it says what a cut leaves, and this call has none; --cuts CYCLE cuts power"


def help_with_limit(call, outcome):
    """A limit that the machine has reached before the program's first instruction."""
    if outcome.status != LIMIT or outcome.began:
        return ""
    pages = call.number("pages")
    blocks = PER_PAGE * pages
    loading = f"{pages} pages take more than {blocks} cycles; give a greater --limit, or fewer --pages"
    if call.command in ("run", "bench"):
        return f"at its limit the program was not loaded yet: {loading}"
    if call.command == "resume":
        return "at its limit the machine had not read the checkpoint yet; give a greater --limit"
    # Its report has no events. A scheme's line would say that a run had ended.
    if call.command == "compare" and call.number("limit") < blocks:
        return f"the limit is below what loading takes: {loading}"
    return ""


def help_with_console(call, outcome):
    """A console that is full. Whether the program wrote more is not known: it got short counts, and an error from then on."""
    console = call.number("console")
    if outcome.console != PAGE * console:
        return ""
    more = f"--console {console + 1} --pages {call.number('pages') + 1} makes room for {PAGE} more"
    if console >= CONSOLE:
        more = "no --console makes more room"
    if call.command == "resume":
        more = f"it is that of the image; in a run from the beginning {more}"
    return f"the console is full, with {PAGE * console} bytes: if the program wrote more, that is cut off; {more}"


def help_after_run(call, outcome):
    """What is said of a run that exited, trapped or came to its limit."""
    if call.fault or call.command == "make":
        return []
    lines = [about(call, outcome) for about in (help_with_cuts, help_with_tears, help_with_limit, help_with_console)]
    if outcome.status == 1:
        made = help_with_made_program(call)
        lines += [made] if made else help_with_trap(call)
    return lines
