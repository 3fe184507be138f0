"""How tests/print, tests/print-properties and tests/print-indices run a command of ./draugsten on their cases: name, input, all that is to be written."""
import pathlib
import subprocess

from texts import words

ROOT = pathlib.Path(__file__).resolve().parent.parent


def refusal(number, at):
    return f'refused {number} at {at}\n'


def explained(expected):
    """What is to stand on standard error: of a refusal the same line, with its words; if nothing is printed, that the input is too long."""
    if not expected:
        return 'print_indices: the input has more than 1048580 bytes; give the area alone\n'
    if not expected.startswith('refused'):
        return ''
    line = expected.removesuffix('\n')
    return f'{line}: {words("REFUSAL", int(line.split()[1]))}\n'


def escaped(byte):
    """A byte of a name or a code as it is to be written."""
    return chr(byte) if 0x21 <= byte <= 0x7E and byte != 0x5C else f'\\x{byte:02x}'


def status_of(text):
    """The exit status with a text: 3 for a refusal, 1 if nothing is printed."""
    if not text:
        return 1
    return 3 if text.startswith('refused') else 0


def failed(command, name, given, expected):
    """Whether a text is another than expected, or the exit status, which is 3 for a refusal. What a build says is passed over."""
    run = subprocess.run([ROOT / 'draugsten', command], input=given, capture_output=True)
    said = ''.join(line for line in run.stderr.decode().splitlines(keepends=True) if not line.startswith('draugsten: '))
    if (run.returncode, run.stdout, said) == (status_of(expected), expected.encode(), explained(expected)):
        return False
    print(f'{command}: {name}: exit {run.returncode}, expected {expected[:60]!r}, found {run.stdout[:60]!r}, on standard error {said[:200]!r}')
    return True


def run_cases(command, cases):
    """The exit status of a test with these cases."""
    failures = sum([failed(command, *case) for case in cases])
    print(f'{command}: {len(cases)} cases')
    return 1 if failures else 0
