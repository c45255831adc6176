"""What the sources say, read for tools/tightness and tests/contracts: the library crates, their public functions and the contracts of these,
the types that they declare, the calls that hosts use, and what the theorems about a function are called and state."""
import os
import re
import typing

ROOT = os.path.dirname(os.path.dirname(os.path.abspath(__file__)))
CONTRACTS = 'docs/CONTRACTS.md'
PROOFS = 'crates/tightness/proofs'


class Function(typing.NamedTuple):
    crate: str
    module: str
    name: str  # of a method `Type::method`, of a method of a trait `TypeTraitArguments::method`, as the prover names the impl
    parameters: list  # the name and the type of each
    result: str  # its type, or '' for none
    clauses: dict  # `requires` and `ensures` -> the texts of these clauses, in their order
    home: str  # the way to it in the crate's contracts and proofs
    parameter: str = ''  # what it is generic in: one `number`, or one type that is `Copy`

    @property
    def pair(self):
        return self.crate, self.name

    @property
    def alias(self):
        """What a file of theorems calls the module of its contract."""
        return self.name.replace('::', '_')

    @property
    def given(self):
        """What its contract is given in a theorem, for what it is generic in."""
        return GIVEN[self.parameter][0]

    @property
    def ended(self):
        return '(%s.ended %s)' % (self.alias, self.given) if self.given else self.alias + '.ended'

    @property
    def clauses_of(self):
        return 'λ M 𝓤 𝓛. %s.clauses %s𝓛' % (self.alias, self.given + ' ' * bool(self.given))


# of what a function is generic in: what a theorem calls it, how it introduces it, and which of the forms of `Meets` the function has
GIVEN = {
    '': ('', '', 'Meets'),
    'number': ('N', '(N : RattleType) → ', 'MeetsNumber'),
    'Copy': ('A g d', '(A : RattleType) (g : Ghosts A.Denot) (d : Dict) → ', 'MeetsCopy'),
}


def read(path):
    with open(os.path.join(ROOT, path), encoding='utf-8') as file:
        return file.read()


def there(path):
    return os.path.exists(os.path.join(ROOT, path))


def antt_files(folder):
    """The names of the antt files of a folder, without the ending."""
    names = os.listdir(os.path.join(ROOT, folder)) if there(folder) else []
    return sorted(name[: -len('.antt')] for name in names if name.endswith('.antt'))


def source(crate, module):
    """The path of a module's code."""
    return 'crates/%s/src/%s.rt' % (crate, module)


def code(crate, module):
    """A module's code, without comments."""
    return re.sub(r'//[^\n]*', '', read(source(crate, module)))


def closing(text, start, pair):
    """The index behind the bracket that closes the one before `start`."""
    depth, at = 1, start
    while depth:
        depth += {pair[0]: 1, pair[1]: -1}.get(text[at], 0)
        at += 1
    return at


def apart(text):
    """The parts of a text between the commas that stand in no bracket, without the empty ones."""
    parts, depth = [''], 0
    for letter in text:
        depth += (letter in '([{<') - (letter in ')]}>')
        if letter == ',' and depth == 0:
            parts.append('')
        else:
            parts[-1] += letter
    return [part.strip() for part in parts if part.strip()]


# ---- crates and functions


def crate_lines():
    """Of each line of crates.txt the words before the colon, the crate's name first, and the crates that it names."""
    lines = [line.partition('#')[0].partition(':') for line in read('crates.txt').splitlines()]
    return [(words.split(), named.split()) for words, colon, named in lines if colon]


def crates():
    """Each crate of crates.txt -> the crates that it names."""
    return {words[0]: named for words, named in crate_lines()}


def static_libraries():
    """The crates that are libraries for C alone."""
    return [words[0] for words, _ in crate_lines() if 'staticlib' in words]


def library_crates():
    """The crates that other crates can name, without those that programs alone name: what they read and write is a program's own."""
    named = crates()
    libraries = [name for name in named if there(source(name, 'lib')) and name not in static_libraries()]
    by_libraries = {below for name in libraries for below in named[name]}
    by_programs = {below for name in named if there(source(name, 'main')) for below in named[name]}
    return [name for name in libraries if name in by_libraries or name not in by_programs]


def public_functions(crates=None):
    """(crate, function) -> Function, for each `pub fn` of a library's root and each that the root passes on by `pub use`; for each `pub fn` of an
    impl of a public type; and for each function of an impl of a trait that says what it gives."""
    found = {}
    for crate in library_crates() if crates is None else crates:
        passed = {'lib': None}  # module -> what the root passes on of it; of the root itself, all that is `pub`
        for module, items in re.findall(r'^pub use (\w+)::(\w+|\{[^}]*\});', read(source(crate, 'lib')), re.M):
            passed.setdefault(module, set()).update(re.findall(r'\w+', items))
        for module in modules(crate):
            text = code(crate, module)
            blocks = impls(text)
            for match in re.finditer(r'\bpub\s+(?:extern\s+"C"\s+)?fn\s+(\w+)\s*(?:<([^>]*)>)?\s*\(', text):
                inside = [block for block in blocks if block.start <= match.start() < block.end]
                if not inside and module in passed and (passed[module] is None or match.group(1) in passed[module]):
                    made = function(crate, module, match.group(1), match.group(1), match.end(), text)
                    found[made.pair] = made._replace(parameter=generic_in(match.group(2) or ''))
            for block in blocks:
                for made in methods(crate, module, block, text, passed):
                    found[made.pair] = made
    return found


def generic_in(text):
    """What a function with these parameters in angle brackets is generic in; lifetimes are none."""
    parameters = [part for part in apart(text) if not part.startswith("'")]
    kinds = ['number' if re.fullmatch(r'const \w+: usize', part) else part.partition(': ')[2] for part in parameters]
    return ' '.join(kinds)


def modules(crate):
    """The modules of a crate, the root first; those of a program are none of a library."""
    names = sorted(name[: -len('.rt')] for name in os.listdir(os.path.join(ROOT, 'crates', crate, 'src')) if name.endswith('.rt'))
    return sorted(names, key=lambda name: name != 'lib')


class Impl(typing.NamedTuple):
    trait: str  # '' where it is an impl of a type alone
    kind: str  # the type
    start: int
    end: int


def impls(text):
    found = []
    for match in re.finditer(r'^impl\b\s*(?:<(?:[^<>]|<[^<>]*>)*>)?\s*([^{]*?)\s*\{', text, re.M):
        trait, colon, kind = match.group(1).rpartition(' for ')
        found.append(Impl(trait.strip(), kind.strip(), match.start(), closing(text, match.end(), '{}')))
    return found


def spelled(kind):
    """How the prover spells a type, or a trait with its arguments, in the name of an impl: `From<layout::Placement>` is `FromLayoutPlacement`."""
    kind = kind.strip()
    if kind.startswith('('):
        parts = apart(kind[1:-1])
        return 'Tuple%d%s' % (len(parts), ''.join(map(spelled, parts)))
    array = re.fullmatch(r'\[(.*); (\w+)\]', kind)
    if array:
        return 'Array%s%s' % (spelled(array.group(1)), spelled(array.group(2)))
    path, _, arguments = re.sub(r"<(?:'\w+(?:, )?)+>", '', kind).partition('<')
    words = ''.join(word[:1].upper() + word[1:] for word in re.findall(r'\w+', re.sub(r"&|'\w+", '', path)))
    return words + ''.join(map(spelled, apart(arguments.removesuffix('>')))) if arguments else words


def methods(crate, module, block, text, passed):
    """The public functions of an impl."""
    own = block.kind.partition('<')[0]
    heads = re.finditer(r'\b(pub\s+)?fn\s+(\w+)\s*(?:<[^>]*>)?\s*\(', text[block.start : block.end])
    for match in heads:
        public, name = match.groups()
        if block.trait:
            way = spelled(block.kind) + spelled(block.trait)
            made = function(crate, module, way + '::' + name, joined(module, way, name), block.start + match.end(), text, block.kind)
            clauses = made.clauses or members(name, made, text[block.start : block.end])
            if 'ensures' in clauses:
                yield made._replace(clauses=clauses)
        elif public:
            home = declared(crate, module, own)
            if home and (passed.get(home[1], ()) is None or own in passed.get(home[1], ())):
                yield function(crate, module, own + '::' + name, joined(home[1], own, name), block.start + match.end(), text, block.kind)


def joined(module, *names):
    return '.'.join(([] if module == 'lib' else [module]) + list(names))


def members(name, made, text):
    """The clauses of a method of a trait: what the impl says by the ghost members `can_NAME` and `NAME_gives`."""
    clauses = {}
    for kind, member in (('requires', 'can_' + name), ('ensures', name + '_gives')):
        match = re.search(r'\bghost %s = \{\s*λ ([^.]*)\.((?:[^{}]|\{[^{}]*\})*)\};' % member, text)
        if match:
            names = [parameter for parameter, _ in made.parameters] + ['result'] * (kind == 'ensures')
            words = dict(zip(match.group(1).split(), names))
            clauses[kind] = [re.sub(r'(?<![\w.])[^\W\d]\w*', lambda word: words.get(word.group(), word.group()), match.group(2))]
    return clauses


def function(crate, module, name, home, start, text, own=None):
    """The function of this name whose parameters begin at `start`; `own` is the type of its impl."""
    end = closing(text, start, '()')
    parts = apart(text[start : end - 1])
    parameters = []
    for part in parts:
        itself = re.fullmatch(r"(&(?:'\w+ )?(?:mut )?)?(?:mut )?self", ' '.join(part.split()))
        pattern = re.fullmatch(r'\(.*?\)\s*:\s*(.*)', part, re.S)
        if itself:
            parameters.append(('self', (itself.group(1) or '') + own))
        elif pattern:
            parameters.append(('_', ' '.join(pattern.group(1).split())))
        else:
            parameters += typed(part)
    result, clauses = signature(text, end)
    return Function(crate, module, name, parameters, own if result == 'Self' else result, clauses, home)


def typed(text):
    """Name and type of each in a list of parameters or fields."""
    return re.findall(r'(\w+)\s*:\s*(.*)', '\n'.join(' '.join(part.split()) for part in apart(text)))


def signature(text, at):
    """The result and the clauses of the function whose parameters end at `at`."""
    head, clauses = '', {}
    while True:
        clause = re.match(r'([^{]*?)\b(requires|ensures)\s*(?:\w+\s*)?\{', text[at:])
        if not clause:
            break
        head = head or clause.group(1)
        start = at + clause.end()
        at = closing(text, start, '{}')
        clauses.setdefault(clause.group(2), []).append(text[start : at - 1])
    head = head or text[at : text.index('{', at)]
    result = re.match(r'\s*->\s*(.*)', head.strip())
    return result.group(1).strip() if result else '', clauses


def declared(crate, module, path):
    """The crate and the module that declare the type which a module names so: `Used`, or `places::Used`."""
    if not re.fullmatch(r'[\w:]+', path):
        return None
    *way, name = path.split('::')
    text = code(crate, module)
    if not way:
        if re.search(r'\b(?:struct|enum)\s+%s\b' % name, text):
            return crate, module
        used = re.search(r'^(?:pub )?use ((?:\w+::)+)(?:%s|\{(?:[^}]*\W)?%s\b[^}]*\});' % (name, name), text, re.M)
        if not used:
            return None
        way = used.group(1).split('::')[:-1]
    if way[0] == 'crate':
        return declared(crate, way[1] if len(way) > 1 else 'lib', name)
    if module == 'lib' and there(source(crate, way[0])):
        return declared(crate, way[0], name)
    return declared(way[0], 'lib', name) if there(source(way[0], 'lib')) else None


def fields(crate, module, name):
    """The fields of a struct, each with its type; none of anything else. Those of a tuple struct are numbered."""
    text = code(crate, module)
    match = re.search(r'\bstruct\s+%s\s*([({])' % name, text)
    if not match:
        return []
    if match.group(1) == '{':
        return typed(text[match.end() : closing(text, match.end(), '{}') - 1])
    inside = text[match.end() : closing(text, match.end(), '()') - 1]
    return [(str(number), part.removeprefix('pub ')) for number, part in enumerate(apart(inside))]


# ---- the tables of docs/CONTRACTS.md


def section(title):
    text = read(CONTRACTS)
    start = re.search(r'^## %s$' % re.escape(title), text, re.M)
    if not start:
        return ''
    rest = text[start.end() :]
    end = re.search(r'^## ', rest, re.M)
    return rest[: end.start()] if end else rest


def named(cell, functions):
    """The functions that a table's cell names: `crate::function(..)` or `crate::Type::method(..)`, and then others; without a crate it is the one before, or the only one that has it."""
    crate = None
    for text in re.findall(r'`([^`]*)`', cell):
        match = re.match(r'(?:([a-z]\w*)::)?((?:[A-Z]\w*::)?\w+)', text)
        homes = [home for home, name in functions if name == match.group(2)]
        crate = match.group(1) or (crate if crate in homes or not homes else homes[0])
        yield crate, match.group(2)


def first_column(text, head, functions):
    """The functions that the first column names, in the tables of this text whose first column has this head."""
    found, reading = [], False
    for line in text.splitlines():
        cells = [cell.strip() for cell in line.split('|')]
        if not line.startswith('|'):
            reading = False
        elif cells[1] == head:
            reading = True
        elif reading and not cells[1].startswith('---'):
            found.extend(named(cells[1], functions))
    return found


def host_calls(functions):
    """The calls that hosts use, in the order of the table."""
    return list(dict.fromkeys(first_column(section('For any input'), 'call', functions)))


def inner_functions(functions):
    """The public functions that only chapters of the library call."""
    return first_column(section('For callers inside the library'), 'function', functions)


def exceptions(functions):
    """The functions whose contracts are not tight, and say so."""
    return first_column(section('Exceptions'), 'function', functions)


# ---- the theorems about a function


def label(kind, pair):
    return '%s_%s_%s' % (kind, pair[0], pair[1].replace('::', '_'))


def symbol(pair):
    """What a file of theorems calls the module that names the function and its code."""
    return pair[1].replace('::', '_') + '_symbol'


def statement_of(kind, function):
    """What the theorem must say."""
    _, introduced, meets = GIVEN[function.parameter]
    if kind == 'meets':
        code = '%s.name %s.code' % ((symbol(function.pair),) * 2)
        return '%s %s.ended (%s) %s' % (meets, function.alias, function.clauses_of.replace('λ', 'λ %s' % function.given).replace('λ  ', 'λ '), code)
    about = '%s (%s)' % (function.ended, function.clauses_of)
    if kind == 'total':
        return introduced + 'Total ' + about
    if function.result.startswith('&'):
        return introduced + 'TightPart ' + about.replace('.ended ', '.ended (λ c r. r.now) ', 1)
    return introduced + 'Tight ' + about


def theorems(path):
    """Name and statement of each theorem of a file."""
    return re.findall(r'^pub ((?:tight|meets|total)_\S+) : (.*)$', read(path), re.M)
