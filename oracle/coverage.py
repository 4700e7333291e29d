#!/usr/bin/env python3
"""Which lines of the Rust's reduction a text reaches.

    oracle/coverage.py TEXT ..      (NANOBRUIJN_SRC as for oracle/build; needs valgrind, objdump)

The oracle is built without optimization and run under callgrind; a line counts as code if the program's line table names it,
and as reached if an instruction of it ran. Listed are the lines of tc.rs in the functions below that no text reached.
"""
import os, re, subprocess, sys
here = os.path.dirname(os.path.abspath(__file__))
out = os.path.join(here, '..', 'target', 'oracle-coverage')
TAKEN = '''cache_bucket lookup_var_value push_local_let pop_local get_rec_rule do_nat_bin try_reduce_nat reduce_proj reduce_proj_core
whnf whnf_inner whnf_no_unfolding whnf_no_unfolding_aux to_ctor_when_k is_ctor_app iota_try_eta_struct reduce_rec reduce_quot unfold_def'''.split()


def functions(path):
    """First and last line of each function of the taken part."""
    spans, name, start = {}, None, 0
    for i, l in enumerate(open(path), 1):
        m = re.match(r'    (?:pub(?:\(crate\))? )?fn (\w+)', l)
        if m: name, start = m.group(1), i
        if l.startswith('    }') and name in TAKEN: spans[name] = (start, i); name = None
    return spans


def main():
    env = dict(os.environ, CARGO_PROFILE_DEV_OPT_LEVEL='0', RUSTFLAGS='-Awarnings -C debuginfo=2 -C dwarf-version=4')
    subprocess.run([os.path.join(here, 'build'), out], check=True, env=env)
    program = os.path.join(out, 'oracle')
    table = subprocess.run(['objdump', '--dwarf=decodedline', program], capture_output=True, text=True).stdout
    code = {int(m.group(1)) for m in re.finditer(r'^tc\.rs\s+(\d+)\s', table, re.M)}
    reached = set()
    for text in sys.argv[1:]:
        data = os.path.join(out, 'callgrind.out')
        subprocess.run(['valgrind', '--tool=callgrind', '--dump-line=yes', '--compress-pos=no', '--compress-strings=no',
                        '--callgrind-out-file=' + data, program], stdin=open(text), stdout=subprocess.DEVNULL, stderr=subprocess.DEVNULL, check=True)
        file = ''
        for l in open(data):
            if l[:3] in ('fl=', 'fi=', 'fe='): file = l[3:].strip()
            elif l[:1].isdigit() and file.endswith('/tc.rs'): reached.add(int(l.split()[0]))
    path = os.path.join(out, 'crate', 'src', 'tc.rs')
    source = open(path).read().splitlines()
    total = hit = 0
    for name, (a, b) in functions(path).items():
        lines = [i for i in range(a, b + 1) if i in code]
        total += len(lines); hit += sum(i in reached for i in lines)
        for i in lines:
            if i not in reached: print('%5d  %-22s %s' % (i, name, source[i - 1].strip()[:110]))
    print('%d of %d lines reached' % (hit, total))


main()
