"""Commands of this machine."""
import subprocess

from fwdesk_setup.errors import NotDone


def run(*words: object, given: str = "") -> tuple[int, str]:
    """The status of a command, and all that it said. Status 127 is that of a command that isn't there."""
    try:
        ran = subprocess.run(
            [str(it) for it in words],
            input=given,
            stdout=subprocess.PIPE,
            stderr=subprocess.STDOUT,
            text=True,
        )
    except FileNotFoundError:
        return 127, f"{words[0]}: not installed"
    return ran.returncode, ran.stdout.strip()


def output_of(*words: object, given: str = "") -> str:
    """What a command says that has to succeed."""
    status, said = run(*words, given=given)
    if status:
        raise NotDone(f"{' '.join(map(str, words))}: status {status}: {said[-600:]}")
    return said


def systemctl(*words: str) -> bool:
    """Whether an order of systemctl succeeds."""
    return run("systemctl", *words)[0] == 0
