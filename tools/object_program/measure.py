#!/usr/bin/env python3
"""measure.py JFLUID: machine instructions for each step of Objects.java, plain and with everything below main profiled, by valgrind's
callgrind, as the difference of two budgets, so that start and report do not count. It takes javac (with --release 8) and sets the class
files to version 50."""
import os, re, subprocess, sys, tempfile

HERE = os.path.dirname(os.path.abspath(__file__))
ROOT = 'at 0 select Objects.main([Ljava/lang/String;)V'


def compiled(folder):
    subprocess.run(['javac', '-nowarn', '--release', '8', '-d', folder, os.path.join(HERE, 'Objects.java')], check=True)
    names = sorted(name for name in os.listdir(folder) if name.endswith('.class'))
    for name in names:
        with open(os.path.join(folder, name), 'r+b') as file:
            file.seek(6)
            file.write(bytes([0, 50]))
    return names


def cost(program, folder, names, budget, lines):
    with open(os.path.join(folder, 'plan'), 'w') as plan:
        plan.write('\n'.join(['main Objects', 'heap 67108864', f'budget {budget}', *lines, '']))
    words = ['valgrind', '--tool=callgrind', '--callgrind-out-file=/dev/null', program, '--plan', 'plan', *names]
    run = subprocess.run(words, cwd=folder, stdin=subprocess.DEVNULL, capture_output=True)
    if f'steps {budget}'.encode() not in run.stderr:
        sys.exit(run.stderr.decode())
    return int(re.search(rb'refs:\s+([\d,]+)', run.stderr).group(1).replace(b',', b''))


def main():
    program = os.path.abspath(sys.argv[1])
    with tempfile.TemporaryDirectory() as folder:
        names = compiled(folder)
        for name, lines in (('plain', []), ('below main profiled', [ROOT])):
            steps = cost(program, folder, names, 2000000, lines) - cost(program, folder, names, 1000000, lines)
            print(f'{name}: {steps / 1e6:.0f} instructions a step')


main()
