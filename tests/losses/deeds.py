"""What programs of a random plan do: they add lines and files, move, copy, link and mark them. What they delete they name in a file beside."""
from names import ALL_PATHS, FOLDERS

# A name is taken only if nothing has it, and no link on the way is followed.
BEGIN = """set -C
[ "$(ulimit -S -f)" = unlimited ] || ulimit -S -f unlimited
[ "$(ulimit -S -n)" -ge 64 ] || ulimit -S -n 64
log() { echo "$1" >>../log; }
own() { case $1 in */*) [ ! -L "${1%/*}" ] || return 1 ;; esac; [ ! -L "$1" ]; }
free() { own "$1" && [ ! -e "$1" ]; }
"""


def append(plan, path, _):
    token = plan.token()
    return f"own {path} && [ -f {path} ] && echo {token} >>{path} && log {token}"


def create(plan, path, _):
    token = plan.token()
    return f"free {path} && echo {token} >{path} && log {token}"


def create_twice(plan, path, _):
    """A name that the Shell takes for the same one."""
    token, name = plan.token(), path.split("/")[-1]
    other = path.removesuffix(name) + name.upper()
    return f"free {other} && echo {token} >{other} && log {token}"


def create_two(plan, path, _):
    """Two files that the Shell takes for one, and knows none of."""
    token, second, name = plan.token(), plan.token(), path.split("/")[-1]
    other = path.removesuffix(name) + name.upper()
    return f"free {path} && free {other} && echo {token} >{path} && log {token} && echo {second} >{other} && log {second}"


def make_two_folders(plan, _, __):
    """Two folders that the Shell takes for one, and knows none of."""
    token, second, folder = plan.token(), plan.token(), plan.numbers.choice(FOLDERS)
    other = folder.upper()
    return (f"free {folder} && free {other} && mkdir {folder} {other} && echo {token} >{folder}/a && log {token} && echo {second} >{other}/b && log {second}")


def create_large(plan, path, other):
    if not plan.has_large:
        return create(plan, path, other)
    token = plan.token()
    size = plan.large_size(token)
    return f"free {path} && (echo {token}; head -c {size - len(token) - 1} /dev/zero) >{path} && log {token}"


def move(_, path, other):
    return f"own {path} && free {other} && mv -nT {path} {other}"


def move_folder(plan, _, __):
    folder, second = plan.numbers.sample(FOLDERS, 2)
    return f"own {folder} && free {second} && mv -nT {folder} {second}"


def copy(_, path, other):
    return f"own {path} && free {other} && cp -n {path} {other}"


def hide(plan, _, __):
    token = plan.token()
    return f"own d/.h && echo {token} >>{plan.numbers.choice(['.h', 'd/.h'])} && log {token}"


def link(plan, path, other):
    return f"free {path} && ln -s {plan.target(path, other)} {path}"


def link_folder(plan, _, __):
    """A folder gets another name, and a link has its old one."""
    folder, second = plan.numbers.sample(FOLDERS, 2)
    return f"[ -d {folder} ] && own {folder} && free {second} && mv -nT {folder} {second} && ln -s {second} {folder}"


def second_name(_, path, other):
    return f"own {path} && [ -f {path} ] && free {other} && ln {path} {other}"


def unlink_link(_, path, __):
    return f"[ ! -L {path} ] || rm {path}"


def mark(plan, path, _):
    return f"own {path} && [ -e {path} ] && chmod {plan.numbers.choice(['600', '644', '755'])} {path}"


def make_folder(plan, _, __):
    return f"mkdir -p {plan.numbers.choice(FOLDERS)}"


def delete(_, path, __):
    return f"own {path} && [ -f {path} ] && grep -aohE '[st][0-9]+x' {path} >>../gone; own {path} && [ -f {path} ] && rm {path}"


ADDS = [append, append, create, create_large, hide]
MOVES = [move, move_folder, copy, second_name]
LINKS = [link, link, link_folder, unlink_link]
OTHERS = [mark, make_folder, create_twice, create_two, make_two_folders]
# Two programs at a time could lose by these what they do to each other's files.
ALONE = [delete]


def deed(plan, kinds=None):
    """A line of a program; where the plan has two runs, none that could lose what the other run's program adds."""
    numbers = plan.numbers
    kinds = kinds or ADDS * 3 + MOVES * 2 + LINKS * (4 if plan.kind == "links" else 1) + OTHERS + (ALONE if plan.is_alone else [])
    return numbers.choice(kinds)(plan, numbers.choice(ALL_PATHS), numbers.choice(ALL_PATHS))
