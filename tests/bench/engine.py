"""The engine as the benchmarks link it: the static library of crates/host, or the LLVM module that it is compiled from, compiled for
this machine; and a program's module so compiled. Rests on rt and on the compiler of its kit."""
import contextlib, os, pathlib, platform, re, shutil, subprocess, sys, tempfile

KIT = pathlib.Path(shutil.which('rt') or sys.exit('rt is not on the path')).resolve().parents[1]
MACHINE = platform.machine()
CLANG = KIT / 'toolchain/bin/clang'

# Where a loop begins in a line of the cache moves the time of a short one by up to a quarter, and any change moves all loops behind it. So
# where a module is compiled for the machine its functions and loops begin at lines, and what is compared is what they do.
AT_LINES = ['-mllvm', '-align-all-functions=6', '-falign-loops=64']


def do(*words, **more):
    """Runs a command; what it says is shown where it fails."""
    ran = subprocess.run([str(word) for word in words], text=True, stdout=subprocess.PIPE, stderr=subprocess.STDOUT, **more)
    if ran.returncode:
        sys.exit(f'{ran.stdout}\n{pathlib.Path(str(words[0])).name} failed')
    return ran.stdout


def processor():
    said = do('lscpu', env={**os.environ, 'LC_ALL': 'C'})
    return re.search(r'Model name:\s*(.*)', said)[1]


def what_it_is_of(engine, rust, measured):
    """Lines of a page: what its figures are of."""
    return [('machine', f'{processor()}, {MACHINE}, {os.cpu_count()} processors'),
            ('engine', engine),
            ('toolchain', f'{do("rt", "version").strip()}; {do(CLANG, "--version").splitlines()[0]}'),
            ('Rust', f"{do('rustc', '--version').strip()}{rust}, with document 01's sine, cosine, maximum and minimum"),
            ('measured', f'by turns in one process, warm, in batches of 20 µs or more, {measured} ms a figure, from four places of the stack; the fastest batch counts'),
            ('pools', 'cleared beforehand: every internal buffer is stale when a window begins, so stages store'),
            ('numbers', 'levels, frequencies and all other parameters are slots of the lent values; inputs are noise, quiet (0.05) or loud (1)')]


@contextlib.contextmanager
def listening_kit(into):
    """The kit by links, for as long as it is wanted, with a compiler that keeps what it is given and how it is called before it does what the
    kit's own does. rt works with the kit that its file lies in, so that it is copied. No link may lie in the repository, where rt refuses it."""
    opened, copied = ['', 'bin', 'toolchain', 'toolchain/bin'], ['bin/rt', 'bin/rtlib.py']
    with tempfile.TemporaryDirectory() as folder:
        kit = pathlib.Path(folder) / 'kit'
        for inside in opened:
            (kit / inside).mkdir()
            for path in (KIT / inside).iterdir():
                name = path.relative_to(KIT).as_posix()
                if name in copied:
                    shutil.copy2(path, kit / name)
                elif name not in opened and path != CLANG:
                    (kit / name).symlink_to(path)
        clang = kit / CLANG.relative_to(KIT)
        clang.write_text(f'#!/bin/sh\ncp module.bc {into}/module.bc\nprintf "%s\\n" "$@" >{into}/options\nexec {CLANG} "$@"\n')
        clang.chmod(0o755)
        yield kit


def for_this_machine(text):
    """A module for x86-64 as one for aarch64. There C passes a large record as a pointer to a copy of its own, where x86-64 has the
    copy on the stack; and it returns one through a pointer apart from the parameters, where x86-64 has it before them."""
    text = re.sub(r'(?m)^target (datalayout|triple) = .*\n', '', text)
    text = re.sub(' "target-cpu"="x86-64[^"]*"', '', text)
    text = re.sub(r' byval\(\[\d+ x i8\]\) align 8', '', text)

    def returns(function):
        head, body = function[1], function[2]
        return head.replace('noundef ptr @', 'void @').replace('(ptr noundef %a0', '(ptr noundef sret(i8) %a0') + re.sub(r'ret ptr .*', 'ret void', body)

    return re.sub(r'(?ms)^(define noundef ptr @grynnadot_\w+\(ptr noundef %a0[^\n]*)(\n.*?^\})', returns, text)


def module(root, into):
    """The library's LLVM module as text for this machine, and the options that rt has it compiled with. rt proves first what has
    changed, and writes the archive of that repository."""
    into.mkdir(parents=True, exist_ok=True)
    with listening_kit(into) as kit:
        do(kit / 'bin/rt', 'lib', cwd=root / 'crates/host')
    return caught(into)


def program_module(root, into, name):
    """The same of a program. With the backend named rt compiles it whether or not it has changed, and runs it, here on no input."""
    into.mkdir(parents=True, exist_ok=True)
    with listening_kit(into) as kit:
        do(kit / 'bin/rt', 'run', '--backend', 'llvm', cwd=root / 'crates' / name, stdin=subprocess.DEVNULL)
    return caught(into)


def making(words):
    """Of a compiler's options those that say how code is made: its level, its features, and what goes to its inner parts, but for traps."""
    kept = []
    for before, word in zip(['', *words], words):
        if before in ('-Xclang', '-mllvm'):
            kept += [before, word] if 'trap' not in word else []
        elif word.startswith(('-O', '-f')) and word != '-fintegrated-cc1':
            kept.append(word)
    return kept


def caught(into):
    """What the listening compiler kept: the module's text for this machine, and options."""
    do(CLANG, '--target=x86_64-unknown-linux-gnu', '-S', '-emit-llvm', '-Xclang', '-disable-llvm-passes', '-x', 'ir', into / 'module.bc', '-o', into / 'module.ll')
    text = (into / 'module.ll').read_text()
    return (text if MACHINE == 'x86_64' else for_this_machine(text)), making((into / 'options').read_text().split('\n'))


def compiled(text, options, made):
    """An object file of a module's text."""
    source = made.with_suffix('.ll')
    source.write_text(text)
    said = do(CLANG, f'--target={MACHINE}-unknown-linux-gnu', *options, '-Wno-override-module', '-c', '-x', 'ir', source, '-o', made)
    if said:
        sys.exit(f'{said}\nthe module is not one for {MACHINE}')


def archive(root):
    """The static library of a repository, made anew. rt proves first what has changed."""
    do('rt', 'lib', cwd=root / 'crates/host')
    return root / 'crates/host/out/libhost.a'


def library(root, into):
    """What to link, and what it is."""
    if MACHINE == 'x86_64':
        return archive(root), 'crates/host/out/libhost.a, as `rt lib` writes it there'
    if MACHINE != 'aarch64':
        sys.exit(f'nothing is known of calls on {MACHINE}')
    text, options = module(root, into)
    compiled(text, options + AT_LINES, into / 'host.o')
    return into / 'host.o', (f'**not the archive**, which is for x86-64 alone: the LLVM module that it is compiled from, compiled for {MACHINE} '
                             f'by the same compiler ({" ".join(options)}), with functions and loops at lines of the cache')


def made_program(root, into, name):
    """A program of the repository for this machine, and what it is."""
    if MACHINE == 'x86_64':
        return root / 'crates' / name / 'out' / name, f'crates/{name}/out/{name}, as `rt run` makes it there'
    if MACHINE != 'aarch64':
        sys.exit(f'nothing is known of calls on {MACHINE}')
    text, options = program_module(root, into, name)
    compiled(text, options, into / f'{name}.o')
    do('cc', '-pie', into / f'{name}.o', '-o', into / name)
    return into / name, (f'**not crates/{name}/out/{name}**, which is for x86-64: the LLVM module that `rt run` compiles, compiled for {MACHINE} '
                         f'by the same compiler ({" ".join(options)})')


def program(here, into, name, profile, linked):
    """A benchmark of this folder, with what it is linked with."""
    shutil.copy2(here / 'Cargo.toml', into)
    shutil.copytree(here / 'src', into / 'src', dirs_exist_ok=True)
    for source in (into / 'src').iterdir():
        source.touch()  # cargo does not see that what is linked has changed
    arguments = [word for path in linked for word in ('-C', f'link-arg={path}')]
    do('cargo', 'rustc', '--bin', name, '--profile', profile, '--offline', '--quiet', '--target-dir', into / 'compiled', '--', *arguments, cwd=into)
    return into / 'compiled' / profile / name
