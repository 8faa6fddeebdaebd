"""Sessions of eight kinds, by what costs in them: `KINDS` has a function for each, from how many
requests there are to be, to the text of the session."""

SEATS = """map seats; set online;
handler login(u, now) { let old = swap(seats, u, now); mark(online, u); reply old; }
handler logout(u) { del(seats, u); drop(online, u); }
handler seen(u) { let at = get(seats, u); let on = has(online, u); reply at, on; }
handler crowd() { let n = count(online); reply n; }
"""
TOUCH = """map m; set s;
handler touch(a, b, c, d, e) { put(m, a, b); let x = swap(m, b, a); let y = get(m, c); del(m, d);
  let p = add(s, e); mark(s, a); let q = has(s, b); bump(m, c, 2); drop(s, d); let z = get(m, a);
  reply x, y, p, q; }
"""
RAISE = """map m;
handler raise(k, d) { let n = 0;
  repeat 5 as i { let v = get(m, k); if v == nil { n = d; } else { n = v + d - i; } put(m, k, n); }
  reply n; }
"""
LOOK = """map m; set s;
handler look() { let a = size(m); let b = count(s); let c = size(m); reply a, b, c; }
handler grow(k) { let a = size(m); put(m, k, a); let b = size(m); mark(s, k); let c = count(s);
  reply a, b, c; }
"""
WALK = """map m; set s;
handler walk(base, step) { let sum = 0;
  repeat 1000 as i { let k = base + i * step; let l = k + 1; let a = swap(m, k, i);
    let b = get(m, l); let c = add(s, k); mark(s, l); let d = has(s, i);
    del(m, i); drop(s, i); bump(m, k, d); let e = get(m, i); let n = size(m); sum = sum + c + d + n; if b != nil { sum = sum + b; } }
  reply sum, base, step; }
"""
SPIN = """handler spin(a, b) { let x = a; let z = 0;
  repeat 1000 as i { repeat 8 as j { x = x * 2 + j - (i - b) * 2; z = z + x * 3 - (x - j);
      if 1000000 < x { x = x - 1500001; } if x < -1000000 { x = x + 1500001; }
      if z < 0 { z = 0 - z; } else { z = z - i; } } }
  reply x, z; }
"""
COMPUTE = """map m;
handler compute(k, n) { let x = n; let a = get(m, k);
  repeat TURNS as i { x = x * 2 + i; if 1000000 < x { x = x - 999999; } }
  put(m, k, x); let b = size(m); reply a, x, b; }
"""


def seats(t):
    """A request of the first kind: twenty people come and go."""
    user = f"u{t * 7919 % 20}"
    return [f"login {user} {t}", "crowd", f"seen {user}", f"logout {user}"][t * t % 7 % 4]


def session(handlers, request):
    """From a number of requests to the session that has them."""
    return lambda count: handlers + "%%\n" + "".join(f"{request(t)}\n" for t in range(count))


KINDS = {
    "work": session(SEATS, seats),
    "disjoint": session(TOUCH, lambda t: "touch " + " ".join(str(5 * t + i) for i in range(5))),
    "hot": session(RAISE, lambda t: f"raise one {t % 17}"),
    "scan": session(LOOK, lambda t: "look" if t % 4 else f"grow {t % 500}"),
    "long": session(WALK, lambda t: f"walk {t * 700} {t % 3 + 1}"),
    "arith": session(SPIN, lambda t: f"spin {t * 31 + 1} {t % 7}"),
    "mixed": session(COMPUTE.replace("TURNS", "750"), lambda t: f"compute {t} {t % 9}"),
    "light": session(COMPUTE.replace("TURNS", "40"), lambda t: f"compute {t % 100} {t}"),
}
