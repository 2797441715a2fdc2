// Code that is compiled while it runs, and a sort with a call back.
function fib(n) { return n < 2 ? n : fib(n - 1) + fib(n - 2); }
let sum = 0;
for (let k = 0; k < +process.argv[2]; k++) {
    sum += fib(24);
    const a = Array.from({ length: 20000 }, (_, i) => (i * 7919 + k) % 10007);
    a.sort((x, y) => x - y);
    sum += JSON.parse(JSON.stringify(a))[5];
    sum += a.map(x => "w" + x).join(" ").replace(/w1\d*/g, m => m.length).length;
}
console.log(sum);
