# The elements of satellite 8195 a day after its epoch, from the store on standard input: ask.py LIBRARY < STORE
import ctypes as C, sys
orbt, file, t = C.CDLL(sys.argv[1]), sys.stdin.buffer.read(), 1440.0
kind, flag, held, steps, c, state, e = C.c_uint32(), C.c_uint32(), C.c_uint32(), C.c_uint32(), (C.c_double * 34)(), (C.c_double * 3)(), (C.c_double * 12)()
number = orbt.orbt_restore(file, C.c_size_t(len(file)), 8195, C.byref(kind), C.byref(flag), c, C.byref(held), state, C.byref(steps))
if number == 0:
    q = (C.c_double * 13)(t, c[6] + c[11] * t + c[16] * (t * t), c[8] + c[12] * t)
    number = orbt.orbt_ask(kind, flag, c, held, state, q, e, C.byref(steps))
if number == 0: print('a %.17g, mean anomaly %.17g' % (e[6], e[4]))
sys.exit(number)
