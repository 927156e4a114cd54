"""examples.py PAGE BIN [FOLDER]: runs the examples of a page, one after the other, and compares. An example is a line '$ ..' in a block of ```console, run
by sh with BIN in front of the path, and what it writes on both outputs, up to the next such line ('..' stands for any lines). A block whose first line
names a file after its language is that file. All happens in FOLDER, or in a new one that has samples/."""
import os
import pathlib
import re
import shutil
import subprocess
import sys
import tempfile


def blocks(text):
    """Each block's language, the file that it names or '', and its text."""
    for head, body in re.findall(r'(?ms)^```(\w[^\n]*)\n(.*?)^```$', text):
        language, _, name = head.partition(' ')
        yield language, name, body


def examples(body):
    for part in re.split(r'(?m)^\$ ', body)[1:]:
        line, _, output = part.partition('\n')
        yield line, output


def alike(said, output):
    return re.fullmatch('.*'.join(re.escape(part) for part in re.split(r'(?m)^\.\.\n', output)), said, re.S)


def main():
    page, path = pathlib.Path(sys.argv[1]), pathlib.Path(sys.argv[2]).resolve()
    folder = pathlib.Path(sys.argv[3] if len(sys.argv) > 3 else tempfile.mkdtemp())
    if len(sys.argv) == 3:
        shutil.copytree(pathlib.Path(__file__).resolve().parent.parent / 'samples', folder / 'samples')
    env = {**os.environ, 'PATH': f'{path}:{os.environ["PATH"]}'}
    run = bad = 0
    for language, name, body in blocks(page.read_text()):
        if name:
            (folder / name).parent.mkdir(parents=True, exist_ok=True)
            (folder / name).write_text(body)
        for line, output in examples(body) if language == 'console' else ():
            said = subprocess.run(['sh', '-c', line], cwd=folder, env=env, stdin=subprocess.DEVNULL, stdout=subprocess.PIPE,
                                  stderr=subprocess.STDOUT, text=True).stdout
            run += 1
            if not alike(said, output):
                bad += 1
                print(f'examples: {page.name}: {line}\n-- says\n{said}-- not\n{output}', file=sys.stderr)
    if len(sys.argv) == 3:
        shutil.rmtree(folder)
    if bad or not run:
        sys.exit(f'examples: {bad} of {run} in {page.name} differ')
    print(f'examples: {run} of {page.name} are as they stand there')


main()
