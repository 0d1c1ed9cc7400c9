"""The options of the program in the manual page and in the completions: lines that tables.py writes from the help of the program."""
import re

from repository import ROOT
COMMANDS = ROOT / 'crates' / 'erd_canon' / 'src' / 'commands'
# The usual texts of a value, by its name.
USUAL = {'TYPE': ['fips', 'local-level', 'national-level', 'ocd-id', 'other', 'state-level'], 'STEPS': ['removed', 'filled-in', 'visible', 'view']}


def help_texts():
    found = re.findall(r'^pub const (\w+): &str =\s*"((?:[^"\\]|\\.)*)";', (COMMANDS / 'help.rt').read_text(encoding='utf-8'), re.M)
    return {name: text.replace('\\"', '"').replace('\n', ' ') for name, text in found}


class Option:
    """An option: its name, the name of its value if it has one, and its help in short and at length."""

    def __init__(self, value, name, help_in_short, help_at_length):
        self.word, self.value = '--' + name, value or None
        self.help, self.help_at_length = help_in_short, help_at_length
        self.usual = USUAL.get(self.value, [])


def commands():
    """For each subcommand its options, and the names of its files."""
    texts = help_texts()
    bodies = dict(re.findall(r'^fn (\w+)<\'a>\((.*?)^\}', (COMMANDS / 'builder.rt').read_text(encoding='utf-8'), re.M | re.S))
    for name, body in bodies.items():
        if name.endswith('_command'):
            body = unfolded(body, bodies)
            yield name.removesuffix('_command'), list(options_of(body, texts)), list(files_of(body))


def unfolded(body, bodies):
    """The body of a function, with the bodies of those that it calls in their places."""
    return re.sub(r'\b(with_\w+|prefer_option)\(alloc(?:, command)?\)', lambda call: unfolded(bodies[call[1]], bodies), body)


def options_of(body, texts):
    """The options of a subcommand."""
    call = r'\b(?:flag|text_option)\(\s*alloc,\s*(?:"(\w+)",\s*)?"([\w-]+)",\s*help::(\w+),\s*help::(\w+),?\s*\)'
    for value, name, help_in_short, help_at_length in re.findall(call, body):
        yield Option(value, name, texts[help_in_short], texts[help_at_length])


def files_of(body):
    """The names of the files of a subcommand, each with whether it is required."""
    for required, other in re.findall(r'\.arg\((?:file_argument\(alloc, "(\w+)"|Arg::new\(alloc, "(\w+)"\)\.help)', body):
        yield required or other, bool(required)


def each_option():
    """Each option once, with the subcommands that take it."""
    found = {}
    for name, options, _ in commands():
        for option in options:
            found.setdefault(option.word, (option, []))[1].append(name)
    return found.values()


def by_options():
    """The subcommands that take the same options, with these."""
    found = {}
    for name, options, _ in commands():
        found.setdefault(tuple(option.word for option in options), ([], options))[0].append(name)
    return found.values()


def in_short(option):
    return option.help[0].lower() + option.help[1:]


def bash():
    yield from ['_erd_options() {', '    case $1 in']
    yield from (f"    {' | '.join(names)}) options='{' '.join(option.word for option in options)}' ;;" for names, options in by_options())
    yield from ['    esac', '}', '_erd_values() {', '    case $1 in']
    yield from (f"    {option.word}) values='{' '.join(option.usual)}' ;;" for option, _ in each_option() if option.value)
    yield from ['    *) return 1 ;;', '    esac', '}']


def zsh():
    yield from ['_erd_options() {', '    case $1 in']
    for names, options in by_options():
        yield f"        {'|'.join(names)})"
        for option in options:
            values = f":{option.value.lower()}:({' '.join(option.usual)})" if option.value else ''
            yield f"            taken+=('{option.word}{'=' if option.value else ''}[{in_short(option)}]{values}')"
        yield '            ;;'
    yield from ['    esac', '}']


def fish():
    yield f"set -g __erd_with_value {' '.join(option.word for option, _ in each_option() if option.value)}"
    for option, names in each_option():
        values = f" -x -a '{' '.join(option.usual)}'" if option.value else ''
        yield f"complete -c erd -n '__fish_seen_subcommand_from {' '.join(names)}' -l {option.word[2:]}{values} \\"
        yield f"    -d '{in_short(option)}'"


def in_roff(text):
    return text.replace('-', '\\-')


def synopsis():
    for name, options, files in commands():
        yield f'.B erd {name}'
        for option in options:
            yield from [f'.RB [ {in_roff(option.word)}', f'.IR {option.value} ]'] if option.value else [f'.RB [ {in_roff(option.word)} ]']
        yield f".I {' '.join(file for file, required in files if required)}"
        yield from [*(f'.RI [ {file} ]' for file, required in files if not required), '.br']


def manual():
    for option, _ in each_option():
        yield from ['.TP', f'.BI {in_roff(option.word)} " {option.value}"' if option.value else f'.B {in_roff(option.word)}']
        for sentence in (option.help_at_length + '.').replace('. ', '.\n').split('\n'):
            # The usual texts of the value are bold, with a point or a comma after them in the roman type.
            bold = '|'.join(option.usual) or '(?!)'
            for line in re.split(rf'(?<![\w-])((?:{bold})[.,]?)(?![\w-]) *', sentence):
                word = line.rstrip('.,')
                if word in option.usual:
                    yield f'.B {in_roff(word)}' if word == line else f'.BR {in_roff(word)} {line[len(word):]}'
                elif line:
                    yield in_roff(line.rstrip(' '))


COMPLETED = '# The options, as tests/pages/tables.py --write writes them:'
TABLES = (
    ('packaging/completions/erd.bash', COMPLETED, '', bash()),
    ('packaging/completions/_erd', COMPLETED, '', zsh()),
    ('packaging/completions/erd.fish', COMPLETED, '', fish()),
    ('docs/erd.1', '.\\" Each subcommand with its options, as tests/pages/tables.py --write writes it:', '.B erd \\-\\-help', synopsis()),
    ('docs/erd.1', '.\\" The help of each option, as tests/pages/tables.py --write writes it:', '.PP', manual()),
)
