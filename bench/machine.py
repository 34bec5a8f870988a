"""On what machine the bench ran."""
import datetime
import os
import platform
import re
import subprocess


def first_line(*command):
    return subprocess.run(command, stdout=subprocess.PIPE, encoding='utf-8').stdout.split('\n')[0]


def model():
    """The kind of processor, or nothing."""
    with open('/proc/cpuinfo', encoding='utf-8') as reading:
        found = re.search(r'model name\s*: (.*)', reading.read())
    return found[1] if found else ''


def machine(*commands):
    """The date, the kind of machine, what else it did, and the versions that these commands print."""
    kinds = [datetime.date.today().isoformat(), platform.machine(), model(),
             f'load {os.getloadavg()[1]:.1f} on {os.cpu_count()} processors before the run']
    return '; '.join(text for text in kinds + [first_line(*words) for words in commands] if text) + '.'
