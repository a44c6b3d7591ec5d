"""Checks `rvfence solve`, at each price list, and `rvfence states` on the examples: what they print against
examples/answers/*.transcripts. `--write` writes that file anew, and with the answers of `solve` the table of
docs/ANSWERS.md.

What stands there is found by scripts/solve_reference.py. It lists candidates, so it is asked of tests with at most
100,000 lists of runs and as many candidates, of states with at most 2,000. The other answers are the program's: of
`solve` where scripts/check_certificate.py says yes to the certificate beside it, of `states` where each execution that
it prints ends in the state above it (no missing state is looked for then).

A file has of each question the command, as it runs in examples/, what is printed, `[status N]`, and an empty line. The
execution beside `none`, of which there may be many, isn't there: it must show the outcome with `rw,rw` everywhere."""
import os
import re
import tempfile

import check_certificate as model
import solve_reference as reference
from running import EXAMPLES, PRICE_LISTS, TOP, Said, read, rvfence, stored_answers, tests_of_examples, text_of, written

GUIDE = f'{TOP}/docs/ANSWERS.md'
IN_TABLE = PRICE_LISTS[:2]
OF_GUIDE = re.compile(r'(?m)^\| Test \| `prices\.json` .*\n(?:\|.*\n)+')
MOST_LISTED = {'solve': 100_000, 'states': 2_000}
TESTS = [os.path.relpath(path, EXAMPLES) for path in tests_of_examples()]
QUESTIONS = {'solve': [(test, prices) for test in TESTS for prices in PRICE_LISTS], 'states': [(it,) for it in TESTS]}


def asked(command, *words):
    """What the program says, without the note of a vacuous outcome."""
    return rvfence(command, '-q', *words, cwd=EXAMPLES)


def by_reference(command, *words):
    """What Python says of this question; or where it would list too much, what the program says, whose certificate it
    says yes to, or which has for each state an execution that ends so."""
    is_listed, paths = reference.is_listed(words[0], MOST_LISTED[command]), [f'{EXAMPLES}/{it}' for it in words]
    if command == 'solve' and is_listed:
        return reference.answer(*map(model.read, paths, [model.test_of, model.prices_of]))
    if command == 'solve':
        with tempfile.TemporaryDirectory() as folder:
            said = asked(command, *words, '--cert', f'{folder}/certificate.json')
            verdict = model.Judge(paths[:1], paths[1]).verdict(read(f'{folder}/certificate.json'))
        if verdict != Said(f'yes\n{said.out}', '', 0):
            raise ValueError(f'the certificate of {words}: {verdict}')
        return said
    try:
        test = reference.Listing(read(paths[0]), is_listed=is_listed)
    except model.Fault as fault:
        return Said('', f'{fault}\n', 2)
    unfenced = (None,) * len(test.test.slots())
    if is_listed:
        return test.answer(unfenced, asked('place', *words).out)
    said = asked(command, *words)
    lines = asked(command, '--witnesses', *words).out.split('\n')[2:2 + 2 * int(said.out.split('\n')[1].split()[1])]
    for line, execution in zip(lines[::2], lines[1::2]):
        if not test.ends_so(execution, line, unfenced):
            raise ValueError(f'{words} does not end as {line} by {execution}')
    return said


def shown(said):
    """The transcript of an answer, without the execution beside `none`."""
    out = re.sub(r'(?s)^none\n.*', 'none\n', said[0])
    return f'{out}{said[1]}[status {said[2]}]'


def cell(answer):
    """An answer in the table: cost and fences, or another first line."""
    first, *lines = answer.split('\n')[:-1]
    if not first.startswith('fenced '):
        return first if first == 'none' else f'`{first}`'
    fences = [re.sub(r'fence P(\d+) (\d+) (.*)', r'`P\1:\2=\3`', line) for line in lines]
    return ' '.join([first.split()[1] + ':' * bool(fences), *fences])


def table(answers):
    """The table of docs/ANSWERS.md."""
    rows = ['| Test | ' + ' | '.join(f'`{prices}`' for prices in IN_TABLE) + ' |', '|---' * (1 + len(IN_TABLE)) + '|']
    for test in TESTS:
        first, second = [cell(answers[test, prices]) for prices in IN_TABLE]
        name = os.path.basename(test).removesuffix('.litmus')
        rows.append(f"| `{name}` | {first} | {'' if second == first else second} |")
    return '\n'.join([*rows, ''])


def compare(run, command, answer, questions):
    answers = stored_answers(command)
    for words in questions:
        said = answer(command, *words)
        run.expect(f'{command} {words}', answers.get(words), shown(said))
        if said[0].startswith('none\n'):
            test = model.read(f'{EXAMPLES}/{words[0]}', model.test_of)
            run.check(f'the execution of {words}', reference.is_same(test, said, said), said)


def check(run, command):
    """The program's answers, and those by another way, by which the file and the table are written first."""
    if run.options.write:
        answers = {words: shown(by_reference(command, *words)) for words in QUESTIONS[command]}
        blocks = [f'$ rvfence {" ".join([command, *words])}\n{answer}\n\n' for words, answer in answers.items()]
        written(f'{EXAMPLES}/answers/{command}.transcripts', ''.join(blocks))
    if run.options.write and command == 'solve':
        written(GUIDE, OF_GUIDE.sub(lambda _: table(answers), text_of(GUIDE)))
    run.expect('the questions', QUESTIONS[command], [*stored_answers(command)])
    compare(run, command, asked, QUESTIONS[command])
    left = [words for words in QUESTIONS[command] if command == 'states' or not reference.is_listed(words[0], 100_000)]
    compare(run, command, by_reference, left)


def check_solve(run):
    """`rvfence solve` on the examples at each price list, by one worker and many."""
    check(run, 'solve')
    compare(run, 'solve', lambda *words: asked(*words, '--workers', '16'), QUESTIONS['solve'])


def check_states(run):
    """`rvfence states` on the examples."""
    check(run, 'states')


def check_reference(run):
    """The answers of scripts/solve_reference.py against the file, and the table of docs/ANSWERS.md against it."""
    listed = [words for words in QUESTIONS['solve'] if reference.is_listed(words[0], 100_000)]
    compare(run, 'solve', by_reference, listed)
    run.expect('the table of docs/ANSWERS.md', table(stored_answers('solve')), OF_GUIDE.search(text_of(GUIDE))[0])
