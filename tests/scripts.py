"""What a program answers to a script (model/SCRIPT.md), whether its previews agree with its calls, and that neither they nor
checks change anything. That needs no answer of the model."""
import re

import streams

SILENT = ('table', 'slot', 'bytes', 'groups', 'most')
PREVIEW = 'preview '
ASKING = (PREVIEW, 'check ')  # commands that begin so change nothing
SLOTS, ENTITY, AREA = 32, 57, 64
DUMP = '[0-9a-f]{%d}' % (2 * (SLOTS * (ENTITY + AREA) + 8 + 8 * 8 + 8))
TOLD = {'load': 'line[0-9]+', 'audit': '-', 'check': '(keeps|breaks)[0-8]'}  # beside the number; the others tell a record
RECORD = '[0-9a-f]{32}'
ANSWER = '[0-9]+ (%s)( [0-9a-f]+| -){2} [0-9a-f]{16}'
BAD_END = 'a bad end, or lines are missing, too many or of another form'


def played(program, script):
    """The commands of a script with the line that a program answers to each, None for a command that has no answer. None if
    the program does not end well in time, or if there is not one line of the right form for each of the others."""
    commands = [line for line in script.splitlines() if line and not line.startswith('#')]
    is_answered = [command.split()[0] not in SILENT for command in commands]
    forms = [form(command) for command, answered in zip(commands, is_answered) if answered]
    done = streams.run([program], script.encode())
    lines = done.out.decode('latin-1').splitlines()
    if not done.is_right(done.out) or len(lines) != len(forms) or not all(map(re.fullmatch, forms, lines)):
        return None
    answers = iter(lines)
    return [(command, next(answers) if answered else None) for command, answered in zip(commands, is_answered)]


def form(command):
    """The form of the answer to a command."""
    return DUMP if command == 'dump' else ANSWER % TOLD.get(command.split()[0], RECORD)


def parted(answer):
    """An answer without the digest, and the digest."""
    told, _, digest = answer.rpartition(' ')
    return told, digest


def fault(program, run):
    """What is wrong with the previews and checks of a script that a program played, None if nothing is. Each leaves the table
    as it is; where the call itself comes after a preview, it is answered like that; and where all of them are left out, the
    other commands are answered as before, audits of `run` among them."""
    if run is None:
        return BAD_END
    table = None  # its digest, where an answer has told it
    for (command, answer), (following, its_answer) in zip(run, [*run[1:], ('', '')]):
        if answer is None:
            table = None
        elif command != 'dump':
            told, digest = parted(answer)
            if command.startswith(ASKING) and table not in (None, digest):
                return '%s changes the table' % command
            if command == PREVIEW + following and parted(its_answer)[0] != told:
                return '%s is answered otherwise than the call' % command
            table = digest
    others = [(command, answer) for command, answer in run if not command.startswith(ASKING)]
    if played(program, ''.join(command + '\n' for command, _ in others)) != others:
        return 'without the previews and checks the other commands are answered otherwise'
    return None
