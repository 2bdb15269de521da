"""The crates by level, as `crates.txt` has them, and which of them the steps of a line's way name."""
import re
from dataclasses import dataclass


@dataclass
class Crates:
    """What each crate stands on directly, its level, and what `crates.txt` says of each level."""
    below: dict
    level: dict
    levels: dict

    def reach(self):
        """All that each crate stands on, directly or by way of others. A crate stands on earlier ones alone."""
        found = {}
        for name, below in self.below.items():
            found[name] = set(below).union(*(found[other] for other in below))
        return found

    def needed(self):
        """Who stands on whom, without what follows from the others."""
        reach = self.reach()
        return [(name, other) for name, below in self.below.items() for other in below
                if not any(other in reach[between] for between in below)]


def read_crates(path):
    crates, level = Crates({}, {}, {}), 0
    with open(path, encoding='utf-8') as file:
        for line in filter(None, map(str.strip, file)):
            title = re.match(r'# Level (\d+): (.*)', line)
            if title:
                level = int(title[1])
                crates.levels[level] = title[2].rstrip('.')
            elif not line.startswith('#'):
                name, _, below = line.partition(':')
                crates.below[name], crates.level[name] = below.split(), level
    for name, below in crates.below.items():
        crates.below[name] = [other for other in below if other in crates.below]
    return crates


def read_steps(path, section, crates):
    """The steps of a section's table: the number of each, what the data becomes, and the crates that its code names."""
    with open(path, encoding='utf-8') as file:
        part = file.read().split('\n## %s\n' % section)[1].split('\n## ')[0]
    for line in part.split('\n'):
        cells_of = [cell.strip() for cell in line.strip('|').split('|')]
        if line.startswith('|') and cells_of[0][:1].isdigit():
            named = [name for name in re.findall(r'[a-z_]+', cells_of[2]) if name in crates.below]
            yield cells_of[0], re.sub(r'[`*]', '', cells_of[1]), named


# A crate that another calls through a trait, and the crate with the trait.
THROUGH = {'pgq_db': 'sky_store', 'sky_session': 'sky_row_store'}


def calls_of(crates, steps, begin):
    """Who calls whom on the way, and the steps of each crate. A crate is called by the last one that is at work and stands
    on it directly, or on the crate with the trait through which it is called; a step without a name is in the crate of
    the step before."""
    at_work, calls, numbers = list(begin), list(zip(begin, begin[1:])), {}
    for step, _, named in steps:
        for name in named or [at_work[-1]]:
            while at_work[-1] != name and not {name, THROUGH.get(name)} & set(crates.below[at_work[-1]]):
                at_work.pop()
            if at_work[-1] != name:
                calls.append((at_work[-1], name))
                at_work.append(name)
            if step not in numbers.setdefault(name, []):
                numbers[name].append(step)
    return list(dict.fromkeys(calls)), numbers
