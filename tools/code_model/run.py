#!/usr/bin/env python3
import sys, random, time, traceback, collections
import model, trees
from model import *
def one(seed, opts, verbose=False):
    random.seed(seed); E.n = 0
    u = trees.Prog(**opts.get('prog', {})).make()
    z = Sim(u, opts.get('work', random.choice([20, 100, 400, 1500])), [random.getrandbits(8) for _ in range(random.randrange(4))],
            [random.randrange(16) for _ in range(random.choice([1, 1, 2, 5]))], opts.get('stack', 16384), opts.get('t0', 0), opts.get('strict', True))
    if verbose:
        for i, (t, b) in enumerate(u.globals): print('g%d: %s = %s' % (i, tyname(t), b))
        for i, f in enumerate(u.functions): print(showf(i, f)); print([(s.start, s.bytes, s.tagged, s.index, s.inner) for s in z.frames[i].slots], z.frames[i].temps, z.frames[i].bytes)
        if verbose > 1:
            for i, c in enumerate(z.code):
                print('code', i)
                for k, it in enumerate(c[0]): print('  ', k, it)
    return z.run(), z
if __name__ == '__main__':
    a, b = int(sys.argv[1]), int(sys.argv[2]); opts = eval(sys.argv[3]) if len(sys.argv) > 3 else {}
    model.OPT.update(opts.get('opt', {})); sys.setrecursionlimit(20000)
    ends = collections.Counter(); faults = collections.OrderedDict(); t = time.time()
    for seed in range(a, b):
        try: e, z = one(seed, opts); ends[e] += 1; STATS.count('programs')
        except Fault as f:
            key = str(f)[:60]; faults.setdefault(key, []).append(seed)
        except Exception as x:
            key = 'CRASH ' + repr(x)[:80] + ' ' + traceback.format_exc().strip().split('\n')[-3][:90]; faults.setdefault(key, []).append(seed)
    print('%d programs in %.1fs' % (b - a, time.time() - t)); print(dict(ends)); print(STATS.n)
    for k, v in sorted(STATS.worst.items()): print('   least', k, v)
    for k, v in list(faults.items())[:40]: print('FAULT', k, '|', len(v), v[:5])
    print('faults:', sum(map(len, faults.values())))
