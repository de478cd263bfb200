"""Sources with one change, such as a mistake that some run shows.

The file twins of a folder has a line for each of them: its name, the name of the source from which it is made, and the commands of sed
that make it.
"""
import os
import subprocess


def twins(folder):
    """The names of the twins of a folder, each with its text."""
    with open(os.path.join(folder, 'twins'), encoding='utf-8') as file:
        lines = [line.rstrip('\n').split(' ', 2) for line in file]
    return {name: subprocess.run(['sed', commands, os.path.join(folder, f'{source}.pal')], capture_output=True, check=True).stdout
            for name, source, commands in lines}


def write_twins(folder):
    """Writes the twins of a folder as sources into it, if it has any."""
    if os.path.exists(os.path.join(folder, 'twins')):
        for name, text in twins(folder).items():
            with open(os.path.join(folder, f'{name}.pal'), 'wb') as file:
                file.write(text)
