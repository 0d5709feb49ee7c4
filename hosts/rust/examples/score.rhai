// A script of a stranger. Its host has the functions `limit`, `double` and `fetch`.
fn known(key) {
    let found = 1;
    try { found = fetch(key); } catch (e) { }
    found
}

fn score(n) {
    if n > limit() { throw "too large"; }
    double(n) + known("bonus")
}

score(20)
