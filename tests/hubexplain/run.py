#!/usr/bin/env python3
"""Tests of tools/hubexplain, alone or from tests/run: the stored cases, and what must agree with other files here.

A file NAME.cases has cases of these lines; other lines, which start with '#' or are empty, are for readers:

    $ WORDS     the arguments, as a shell splits them; the paths in them are from this folder
    < LINE      a line of standard input
    <! TEXT     the same without the end of the line
    <x HEX      raw bytes of standard input
    > LINE      a line that standard output must have, in this order
    ! LINE      the line that standard error must have; standard output must then be empty and the exit status 1
    ? STATUS    another exit status"""
import collections
import contextlib
import importlib.machinery
import importlib.util
import io
import itertools
import os
import random
import re
import shlex
import signal
import subprocess
import sys
import traceback
import unittest.mock

HERE = os.path.dirname(os.path.abspath(__file__))
TOP = os.path.dirname(os.path.dirname(HERE))
TOOL = os.path.join(TOP, 'tools/hubexplain')
EXAMPLES = os.path.join(TOP, 'examples')
STORED = os.path.join(TOP, 'tests/model/stored')
SECONDS = 60


def loaded():
    """hubexplain as a module."""
    loader = importlib.machinery.SourceFileLoader('hubexplain_tool', TOOL)
    module = importlib.util.module_from_spec(importlib.util.spec_from_loader(loader.name, loader))
    loader.exec_module(module)
    return module


MODULE = loaded()
READ = MODULE.read


def explain(*words, data=b''):
    """The exit status, standard output and standard error of hubexplain, run in this process with data as its standard
    input: a program started for each run would take minutes."""
    def reading(path):
        return data if path == '-' else READ(os.path.join(HERE, path))

    with unittest.mock.patch.object(MODULE, 'read', reading), contextlib.redirect_stderr(io.StringIO()) as usage:
        try:
            return 0, MODULE.answer(MODULE.options(words)), ''
        except MODULE.Wrong as wrong:
            return 1, '', f'hubexplain: {wrong}\n'
        except SystemExit as ended:
            return ended.code, '', usage.getvalue()
        except Exception:
            return None, '', traceback.format_exc()


def read(path):
    with open(path, 'rb') as file:
        return file.read()


def files(ending):
    """The paths of the examples and of the model's stored cases with an ending."""
    return sorted(os.path.join(folder, name) for top in (EXAMPLES, STORED) for folder, _, names in os.walk(top)
                  for name in names if name.endswith(ending))


def outputs():
    """The paths of what hubcalls and hubaudit print: each stands beside its text."""
    return [path for path in files('.out') if os.path.exists(re.sub(r'(\.[0-9]+)?\.out$', '.txt', path))]


# Stored cases.

def cases(path):
    """The cases of a file: place, words, input, and what is wanted, status, output and error."""
    found = []
    for number, line in enumerate(read(path).decode().splitlines(), 1):
        sign, _, text = line.partition(' ')
        if sign == '$':
            found.append({'place': f'{os.path.basename(path)} line {number}', 'words': shlex.split(text), 'input': b'',
                          'status': 0, 'output': '', 'error': ''})
        elif sign in ('<', '<!'):
            found[-1]['input'] += text.encode() + (b'\n' if sign == '<' else b'')
        elif sign == '<x':
            found[-1]['input'] += bytes.fromhex(text)
        elif sign == '>':
            found[-1]['output'] += text + '\n'
        elif sign == '!':
            found[-1].update(status=1, error=text + '\n')
        elif sign == '?':
            found[-1]['status'] = int(text)
        elif line and sign != '#':
            raise ValueError(f'{path}, line {number}: {line}')
    return found


def stored_cases():
    for name in sorted(os.listdir(HERE)):
        if name.endswith('.cases'):
            for case in cases(os.path.join(HERE, name)):
                status, output, error = explain(*case['words'], data=case['input'])
                good = status == case['status'] and output == case['output']
                # The words of a usage error are argparse's own.
                good = good and (error == case['error'] or status == 2 and error.startswith('usage: hubexplain'))
                yield good, f'{case["place"]}: {status}\n{output}{error}'


# Records.

def records_of(path):
    """The records that hubcalls or hubaudit printed, as bytes; None where it refused."""
    first, *rest = read(path).decode().splitlines()
    return None if first.startswith('refused') else [bytes.fromhex(line.split(' ')[0]) for line in rest]


def every_record():
    """Every stored output is told, a line for each record, alike in the three forms but for the bytes shown."""
    for path in outputs():
        records, (status, output, error) = records_of(path), explain(path)
        if records is None:
            yield (status, output) == (1, '') and 'no records: ' in error, f'{path}: {status}\n{output}{error}'
            continue
        told = output.splitlines()
        good = (status, error, len(told)) == (0, '', len(records))
        without = [re.sub(r'(shown its content, [0-9]+ bytes?): [0-9a-f]+;', r'\1;', line) + '\n' for line in told]
        audited = 'record\n' + ''.join(record.hex() + '\n' for record in records)
        for words, data in (((), audited.encode()), (('--raw',), b''.join(records))):
            good = good and explain(*words, data=data) == (0, ''.join(without), '')
        yield good, f'{path}: {status}\n{output}{error}'


def every_answer():
    """The records in the answers to a stored script, also by tables that no text gives, are all told."""
    for path in files('.sout'):
        records = re.findall('^[0-9]+ ([0-9a-f]{32}) ', read(path).decode(), re.MULTILINE)
        status, output, error = explain('--raw', data=bytes.fromhex(''.join(records)))
        yield records and (status, output.count('\n')) == (0, len(records)), f'{path}: {status}\n{output}{error}'


# By document 01: the refusals of each call, and whether it uses other, tag and set.
POSSIBLE = {
    1: ((0, 1, 5, 99), False, False, False), 2: ((0, 1, 6, 99), False, False, False),
    3: ((0, 1, 2, 3, 7, 99), True, False, False), 4: ((0, 1, 2, 3, 7, 99), True, False, False),
    5: ((0, 1, 2, 10, 99), False, True, True), 6: ((0, 1, 2, 10, 99), False, True, True),
    7: ((0, 1, 2, 4, 99), True, False, True), 8: ((0, 1, 2, 3, 8, 99), True, False, False),
    9: ((0, 1, 2, 3, 9, 10, 11, 99), True, True, True)}
# Those of them that a caller never gets where the other is itself: without a tag and a set, 2 has nothing to refuse.
NEVER_ITSELF = {3: (2, 3, 7), 4: (2, 3, 7), 7: (0,), 8: (2, 3, 8), 9: (3, 9)}


def every_number():
    """A record is told just where document 01 has its number for its call, and for its call on the caller itself."""
    for kind, (numbers, *uses) in POSSIBLE.items():
        for number, itself in itertools.product((*range(18), 99, 255), {False, uses[0]}):
            fields = (40, 64, 9) if number == 2 else (3, 5, 1)
            other, tag, field = (value if used else 255 for value, used in zip(fields, uses))
            record = bytes([kind, 2, 2 if itself else other, number, 0, tag, field, 0, *bytes(8)])
            status, output, error = explain('--raw', data=record)
            possible = number in numbers and not (itself and number in NEVER_ITSELF[kind])
            yield status == int(not possible), f'record {record.hex()}: {status}\n{output}{error}'


def every_need():
    """Under 1 a record with a need is told just where the caller's slot may hold an item, under 99 never."""
    for kind, (_, *uses) in POSSIBLE.items():
        for number, caller, need in itertools.product((1, 99), (0, 31, 32, 255), (0, 1, 1 << 63)):
            other, tag, field = (5 if used else 255 for used in uses)
            record = bytes([kind, caller, other, number, 0, tag, field, 0]) + need.to_bytes(8, 'little')
            status, output, error = explain('--raw', data=record)
            possible = need == 0 or number == 1 and caller < 32
            yield status == int(not possible), f'record {record.hex()}: {status}\n{output}{error}'


# Pictures.

EDGE = re.compile(r'  slot([0-9]+) -> slot([0-9]+)(?: \[(?:label="((?:[^"\\]|\\.)*)")?(?:, )?(style=dashed.*)?\])?;')


def edges(output):
    """The edges of a picture: origin, target, whether it is dashed, and its rows."""
    found = [EDGE.fullmatch(line) for line in output.splitlines() if '->' in line]
    return [(int(edge[1]), int(edge[2]), edge[4] is not None, (edge[3] or '').split(r'\n')) for edge in found]


def drawn_records():
    """The edges tell just what is in the records' bytes: from whom to whom, calls, numbers and bytes moved."""
    for path in outputs():
        records = records_of(path)
        if records is not None:
            status, output, error = explain('--graph', path)
            yield status == 0 and told_by(edges(output)) == sent_in(records), f'--graph {path}:\n{output}{error}'


def sent_in(records):
    """How often each send and fetch with each number is in some records, dashed if refused, and the bytes moved."""
    found = collections.Counter()
    for kind, caller, other, number, moved, *_ in records:
        if kind in (3, 4):
            pair = (caller, other) if kind == 3 else (other, caller)
            found[pair, number != 0, {3: 'send', 4: 'fetch'}[kind], number] += 1
            found[pair, 'bytes'] += moved
    return found


def told_by(found_edges):
    """The same by the words at some edges."""
    found = collections.Counter()
    for origin, target, dashed, rows in found_edges:
        for row in rows:
            for count, call, number in re.findall('([0-9]+) (send|fetch)(?:s|es)?(?: refused by ([0-9]+))?', row):
                found[(origin, target), dashed, call, int(number or 0)] += int(count)
            found[(origin, target), 'bytes'] += sum(map(int, re.findall('([0-9]+) bytes?', row)))
    return found


def flow_verdicts():
    """A text is drawn where hubcalls takes it, and refused at hubcalls' line where that is in the first two blocks."""
    for path in files('.txt'):
        first = read(path[:-len('.txt')] + '.out').decode().split('\n')[0].split(' ')
        status, output, error = explain('--flow', path)
        good = status in (0, 1) and (status == 0) == (error == '') == (output != '')
        if first[0] != 'refused':
            good = good and status == 0
        elif first[1] == '14':
            good = good and 'longer than 65535 bytes' in error
        elif first[1] != '15' or int(first[3]) <= end_of_groups(path):
            good = good and f': line {first[3]}: ' in error
        yield good, f'--flow {path}: {status}\n{output}{error}'


def end_of_groups(path):
    """The number of the line that ends a text's second block, the last one where no empty line does."""
    lines = read(path).split(b'\n')
    ends = [number for number, line in enumerate(lines[:-1], 1) if not line]
    return ends[1] if len(ends) > 1 else len(lines) - 1 if ends else len(lines)


def random_text(source):
    """A text of five entities with tags 0 to 2, and these by slot: program or not, S, I, four rights."""
    entities, text = {}, 'slot kind sec int sa sd ia id data\n'
    for slot in source.sample(range(32), 5):
        program = source.random() < 0.7
        sets = [source.getrandbits(3) & source.getrandbits(3) for _ in range(6)]
        sets[2:] = sets[2:] if program else [0] * 4
        entities[slot] = (program, *sets)
        text += f'{slot} {"prog" if program else "item"} {" ".join(map(str, sets))} -\n'
    return text + '\ntags\n', entities


def reaches(a, b):
    """Whether the content of a may flow to b at once, and whether after some adds and drops by the rights of both."""
    (_, *labels_a, sa_a, sd_a, ia_a, id_a), (_, *labels_b, sa_b, sd_b, ia_b, id_b) = a, b
    rights = ((0, sa_a, sd_a), (1, ia_a, id_a), (2, sa_b, sd_b), (3, ia_b, id_b))
    start = (*labels_a, *labels_b)
    seen, todo = {start}, [start]
    while todo:
        state = todo.pop()
        for place, add, drop in rights:
            for bit in (1, 2, 4):
                for word in ([state[place] | bit] if add & bit else []) + ([state[place] & ~bit] if drop & bit else []):
                    after = state[:place] + (word,) + state[place + 1:]
                    if after not in seen:
                        seen.add(after)
                        todo.append(after)
    allowed = [s_a | s_b == s_b and i_a | i_b == i_a for s_a, i_a, s_b, i_b in (start, *seen)]
    return allowed[0], any(allowed)


def drawn_flows():
    """On random texts the solid edges are the flows allowed, the dashed ones those that some adds and drops allow."""
    source = random.Random(13)
    for _ in range(100):
        text, entities = random_text(source)
        wanted = set()
        for a in entities:
            for b in entities:
                now, later = reaches(entities[a], entities[b])
                if a != b and later and (entities[a][0] or entities[b][0]):
                    wanted.add((a, b, not now))
        status, output, error = explain('--flow', '-', data=text.encode())
        yield {edge[:3] for edge in edges(output)} == wanted and status == 0, f'--flow:\n{text}{output}{error}'


def shown_to_readers():
    """README has the sentences that hubexplain prints, the pictures in docs the nodes, edges and words it draws."""
    nurseries = os.path.join(EXAMPLES, 'nurseries')
    _, output, _ = explain('--names', nurseries + '.names', nurseries + '.out')
    sentences = ''.join(f'    {line}\n' for line in output.splitlines())
    yield sentences and sentences in read(os.path.join(TOP, 'README.md')).decode(), 'README.md has other sentences'
    for option, ending, name in (('--graph', '.out', 'nurseries-graph.svg'), ('--flow', '.txt', 'nurseries-flow.svg')):
        _, output, _ = explain('--names', nurseries + '.names', option, nurseries + ending)
        svg = read(os.path.join(TOP, 'docs', name)).decode().replace('&#45;', '-').replace('&gt;', '>')
        titles = re.findall(r'<title>(slot[^<]*)</title>', svg)
        texts = re.findall(r'<text [^>]*>([^<]*)</text>', svg)
        drawn = re.findall('^(slot[0-9]+(?:->slot[0-9]+)?)', output.replace(' ', ''), re.MULTILINE)
        said = [row for label in re.findall('label="([^"]*)"', output) for row in label.split(r'\n')]
        good = (sorted(titles), sorted(texts)) == (sorted(drawn), sorted(said))
        yield good, f'docs/{name} is not what hubexplain draws'


# The program itself.

def started(command, data):
    """What a shell's command does, '$0' being hubexplain."""
    ran = subprocess.run(['sh', '-c', command, TOOL], input=data, capture_output=True, cwd=HERE, timeout=SECONDS)
    return ran.returncode, ran.stdout.decode(), ran.stderr.decode()


def program():
    """Started, it does the same; closed and full streams are told in a line; standard input is read only where it is
    asked for, and cannot be asked for twice; a reader that went away ends it."""
    for words in ('', '--raw', '--graph', '--unknown'):
        data = read(os.path.join(EXAMPLES, 'watering.out'))
        yield started(f'"$0" {words}', data) == explain(*words.split(), data=data), f'as a program: {words}'
    for command, line in (('"$0" >/dev/full', 'standard output: No space left on device'),
                          ('"$0" >&-', 'standard output: Bad file descriptor'),
                          ('"$0" <&-', 'standard input: Bad file descriptor'),
                          ('"$0" ""', "'': No such file or directory"),
                          ('"$0" --names ""', "'': No such file or directory"),
                          ('"$0" --flow ""', "'': No such file or directory")):
        yield started(command, data) == (1, '', f'hubexplain: {line}\n'), command
    for command in ('"$0" --names -', '"$0" --names - -', '"$0" --raw --names -', '"$0" --names - --flow -'):
        status, output, error = started(command, b'slot 0 first nursery\n')
        yield (status, output) == (2, '') and 'error: standard input cannot be both' in error, command
    nurseries = os.path.join(EXAMPLES, 'nurseries')
    for words in (f'{nurseries}.out', f'--flow {nurseries}.txt'):
        wanted = explain('--names', f'{nurseries}.names', *words.split())
        good = started(f'"$0" --names - {words}', read(f'{nurseries}.names')) == wanted and wanted[0] == 0
        yield good, f'names on standard input: {words}'
    gone, pipe = os.pipe()
    os.close(gone)
    ran = subprocess.run([TOOL], input=data, stdout=pipe, stderr=subprocess.PIPE, timeout=SECONDS)
    os.close(pipe)
    yield ran.returncode == -signal.SIGPIPE and ran.stderr == b'', f'a reader that went away: {ran}'


def results():
    """Runs all, prints what failed, and returns how many passed and failed."""
    counts = collections.Counter()
    for tests in (stored_cases, every_record, every_answer, every_number, every_need, drawn_records, flow_verdicts,
                  drawn_flows, shown_to_readers, program):
        for good, words in tests():
            counts[bool(good)] += 1
            if not good:
                print('FAILED: hubexplain: ' + words)
    return counts[True], counts[False]


if __name__ == '__main__':
    passed, failed = results()
    print(f'{passed} passed, {failed} failed')
    sys.exit(1 if failed else 0)
