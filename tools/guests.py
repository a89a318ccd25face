"""The guests of examples/: where each is, and the words that run it."""
from pathlib import Path

EXAMPLES = Path(__file__).resolve().parent.parent / "examples"
# The folders of guests against a script: the command that runs them, and the file that has what it is to print.
SCRIPTED = {EXAMPLES / "hostile": ("hostile", "trace"), EXAMPLES / "secret": ("secret", "verdict")}
NO_INPUT = EXAMPLES / "hello/empty"
STEPS = 2097152
SCRIPT_STEPS = 65536
# The guests of several vCPUs that print the same in whichever order these come to the devices.
ANY_ORDER = ("chorus",)


def folders():
    """Each example's folder, those against a script last."""
    for path in (EXAMPLES, *SCRIPTED):
        yield from sorted(folder for folder in path.iterdir() if folder.is_dir() and folder not in SCRIPTED)


def image(folder):
    return folder / f"{folder.name}.img"


def vcpus(folder):
    """The number of vCPUs in the image's header."""
    return int.from_bytes(image(folder).read_bytes()[8:10], "little")


def words(folder):
    """The words of `ghcb_run` that run the example: over its input or none, or against its script."""
    if folder.parent in SCRIPTED:
        command, _ = SCRIPTED[folder.parent]
        return command, image(folder), folder / "script", SCRIPT_STEPS
    given = folder / "input"
    return "run", image(folder), given if given.exists() else NO_INPUT, STEPS


def runs(folder):
    """The words of each run of the example, and the file that has what it is to print.

    A run with no page between guest and devices prints what one over the hypervisor does.
    """
    if folder.parent in SCRIPTED:
        _, printed = SCRIPTED[folder.parent]
        yield words(folder), folder / printed
        return
    run, *rest = words(folder)
    yield (run, *rest), folder / "stdout"
    yield ("plain", *rest), folder / "stdout"
    if (folder / "report").exists():
        yield (run, *rest, "report"), folder / "report"


def smp_runs(folder):
    """The words of `ghcb_smp` that run the example, and the file that has what comes: where no order matters."""
    if folder.parent not in SCRIPTED and (vcpus(folder) == 1 or folder.name in ANY_ORDER):
        yield words(folder)[1:], folder / "stdout"
