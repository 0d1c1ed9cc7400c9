"""Wrong bodies: in which functions they stand, and which other functions of the crate can be spared beside them."""
import re

from wrong_lists import BadList

# Types between signs, which may have such types again.
TYPES = r"<(?:[^<>]|<(?:[^<>]|<(?:[^<>]|<[^<>]*>)*>)*>)*>"
IMPL = re.compile(rf"impl({TYPES})? (?:(\w[\w:]*)({TYPES})? for )?&?(\w+)({TYPES})? \{{")
FUNCTION = re.compile(r'(    )?(?:pub(?:\(\w+\))? )?(?:unsafe )?(?:extern "C" )?fn (\w+)')
# Where a function's body begins, or else its declaration ends.
BODY = re.compile(r"^(?: *\{|(?: {4})?\S.* \{|.*;)$", re.M)


def applied(edit, read):
    """Returns the files that the edit changes, as path to text, the functions whose contracts have to refuse it, and those that it
    changes. Each old text stands in its file once, where the pairs before it were applied. `read` gives the text of a path."""
    texts, functions = {}, []
    for path, old, new in edit.changes:
        whole = texts.get(path) or read(path)
        if whole.count(old) != 1:
            raise BadList(f"an old text is in {path} {whole.count(old)} times, and not once")
        functions.append(function_at(path, whole, whole.index(old) + len(old.rstrip())))
        texts[path] = whole.replace(old, new)
    changed = list(dict.fromkeys(it for it in functions if it))
    return texts, list(dict.fromkeys(edit.functions)) or changed, changed


def module_of(path):
    """Returns what the names of a source file's functions begin with."""
    module = path.removeprefix("src/").removesuffix(".rt").replace("/", "::")
    return "" if module in ("lib", "main") else f"{module}::"


def function_at(path, text, at):
    """Returns the function around this place, as a check writes it below its crate, or None. The text is in the layout of
    `rt fmt`."""
    owner, function = "", None
    for line in text[:at].split("\n"):
        impl, found = IMPL.match(line), FUNCTION.match(line)
        if impl:
            own, trait, of, kind, words = impl.groups()
            owner = f"{kind}{letters(words, own)}{(trait or '').split('::')[-1]}{letters(of, own)}::"
        elif line.startswith("}"):
            owner, function = "", None
        elif owner and line == "    }":
            function = None
        elif found:
            function = (owner if found[1] else "") + found[2]
    return function and module_of(path) + function


def spared(path, text, kept):
    """Returns the text with each function that may be out of memory doing nothing else, and these functions. Those of `kept` and
    those that call themselves keep their bodies. A contract allows a function to be out of memory at any time, so such a body is
    proved at once, without those that it called."""
    found, parts, done = [], [], 0
    for head in re.finditer(f"^{FUNCTION.pattern}", text, re.M):
        body = BODY.search(text, head.start())
        if head.start() < done or not body or body[0].endswith(";"):
            continue
        # an edit may have put a body beside its head, and then the next one found is that of another function
        if re.search(f"^{FUNCTION.pattern}", text[head.end():body.start()], re.M):
            continue
        name = function_at(path, text, body.end())
        end = text.index(f"\n{head[1] or ''}}}\n", body.end())
        recurs = re.search(rf"\b{head[2]}\(", text[body.end():end]) or "+" in cycle_of(text, module_of(path), name)
        if re.search(r"-> Result<.*AllocError>", text[head.end():body.end()], re.S) and name not in kept and not recurs:
            found.append(name)
            parts += [text[done:body.end()], f"\n{head[1] or ''}    Err(AllocError)"]
            done = end
    return "".join(parts) + text[done:], found


def letters(words, own):
    """Returns the types of a list such as `<Option<Key>>` without its signs, as the name of an impl has them: of a path the last
    word, and for a pair `Tuple2`. The impl's own lifetimes and types, such as those of `<'a, R: Read>`, are left out."""
    parameters = re.findall(r"[<,] *(\w+)", own or "")
    # the library declares the error of `io` under a name of its own
    words = re.sub(r"\w+::", "", (words or "").replace("io::Error", "IoError"))
    # the innermost pairs first, so that the types of each can be counted
    while "(" in words:
        words = re.sub(r"\(([^()]*)\)", lambda found: f"Tuple{count_of(found[1])} {found[1]}", words, count=1)
    return "".join(it[0].upper() + it[1:] for it in re.findall(r"(?<!')\b\w+", words) if it not in parameters)


def count_of(types):
    """Returns how many types stand in a list, in which each may have types of its own."""
    return len(re.sub(TYPES, "", types).split(","))


def cycle_of(text, module, function):
    """Returns the function, or where it is in a cycle of calls, the cycle, as its proof files are named. `text` is the file of
    the module."""
    name = function.split("::")[-1]
    found = re.search(r"#\[cycle\((\w+)\)\]\n(?:\s*(?:#|//).*\n)*\s*(?:pub(?:\(\w+\))? )?fn " + name + r"\b", text)
    return f"{module}+{found[1]}" if found else function
