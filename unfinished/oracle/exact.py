# Reads lines of an angle, its sine and its cosine by their bits; prints how far off they are.
import struct, sys
import mpmath

mpmath.mp.prec = 250
float_of = lambda digits: struct.unpack('>d', bytes.fromhex(digits))[0]
lines = [[float_of(digits) for digits in line.split()] for line in sys.stdin]
small = [line for line in lines if abs(line[0]) <= 0.7853981633974483]
wrong = 0
print('| Function | Angles | Count | Worst | At |\n|---|---|---|---|---|')
for column, (name, exact) in enumerate([('sin', mpmath.sin), ('cos', mpmath.cos)], 1):
    for inputs, angles in [('all', lines), ('of them small', small)]:
        off = [(abs(mpmath.mpf(line[column]) - exact(mpmath.mpf(line[0]))), line[0]) for line in angles]
        worst, at = max(off)
        wrong += sum(error > mpmath.mpf(2) ** -45 for error, _ in off)
        print(f'| {name} | {inputs} | {len(off)} | 2^{float(mpmath.log(worst, 2)):.2f} | {at!r} |')
print(f'\n{wrong} outside 2^-45')
sys.exit(wrong != 0)
