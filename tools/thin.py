#!/usr/bin/env python3
"""Leaves in proofs/F/Answers.antt only the answers that the check needs.

tools/thin.py CRATE [F ..]: of each function F of a crate, or of all. First all answers go; then those come back whose
goals neither `rt check --margin`, which halves the search's limits, nor `rt check` proves by itself. Lemmas of the file
stay where an answer that stays names them; `rt tidy` drops imports that nothing uses then. Begin with a crate that
proves, or mend its answers first: what comes back is what the file had.
"""
import os
import re
import subprocess
import sys

GONE = re.compile(r'^\./(proofs/\S+/Answers\.antt):\d+:\d+: error: `([^`]+)`: `goal\.[^`]+`: module .* has no', re.M)
OPEN = re.compile(r'^fn \S+: no proof: expected answers in \./(\S+); `search` did not prove ((?:`[^`]+`(?:, )?)+)', re.M)


class Answers:
    def __init__(self, path):
        self.path = path
        with open(path, encoding='utf-8') as file:
            self.blocks = [b for b in re.split(r'\n\s*\n', file.read().strip('\n')) if b.strip()]
        self.goals, self.kept = {}, set()
        for i, block in enumerate(self.blocks):
            name = declared(block)
            if name and re.search(r'^(?:abbrev )?(?:pub )?%s : goal\.' % re.escape(name), block, re.M):
                self.goals[name] = i

    def write(self):
        stay = {self.goals[name] for name in self.kept}
        if not stay:
            if os.path.exists(self.path):
                os.remove(self.path)
            return
        answers, more = set(self.goals.values()), True
        while more:
            more = False
            text = '\n'.join(self.blocks[i] for i in stay)
            for i, block in enumerate(self.blocks):
                name = declared(block)
                named = name is None or re.search(r'(?<![\w-])%s(?![\w-])' % re.escape(name), text)
                if i not in stay and i not in answers and named:
                    stay.add(i)
                    more = True
        with open(self.path, 'w', encoding='utf-8') as file:
            file.write('\n\n'.join(self.blocks[i] for i in sorted(stay)) + '\n')


def declared(block):
    for line in block.split('\n'):
        if not line.startswith(('--', 'use ')):
            found = re.match(r'(?:abbrev )?(?:pub )?([^\s:]+) :', line)
            return found.group(1) if found else None
    return None


def check(*flags):
    run = subprocess.run(['rt', 'check', *flags], capture_output=True, text=True)
    return run.returncode, run.stdout + run.stderr


def main():
    os.chdir(sys.argv[1])
    wanted = set(sys.argv[2:])
    files = {}
    for folder, _, names in os.walk('proofs'):
        if 'Answers.antt' in names and (not wanted or os.path.basename(folder).lstrip('+') in wanted):
            path = os.path.join(folder, 'Answers.antt')
            files[path] = Answers(path)
    before = sum(len(f.goals) for f in files.values())
    for file in files.values():
        file.write()
    for flags in (['--margin'], []):
        more = True
        while more:
            more = False
            code, said = check(*flags)
            for path, goals in OPEN.findall(said):
                file = files.get(path)
                for goal in re.findall(r'`([^`]+)`', goals):
                    for name in list(file.goals) if file else []:
                        if (name == goal or goal.startswith(name + '-clause-')) and name not in file.kept:
                            file.kept.add(name)
                            more = True
            for path, name in GONE.findall(said):
                if path in files and name in files[path].kept:
                    files[path].kept.discard(name)
                    del files[path].goals[name]
                    more = True
            for file in files.values():
                file.write()
    after = sum(len(f.kept) for f in files.values())
    print('%s: answers %d -> %d; %s' % (os.path.basename(os.getcwd()), before, after, 'proved' if code == 0 else 'not proved'))
    if code != 0:
        print('\n'.join(line for line in said.split('\n') if re.match(r'fn .*no proof|.*error:', line)))
    return code


if __name__ == '__main__':
    sys.exit(main())
