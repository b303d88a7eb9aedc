/* The product of two numbers of 128 bits. wasm has no instruction for it, and the kit no library with it for this target. */
typedef unsigned long long half;
typedef unsigned __int128 whole;

static const half LOW = 0xffffffff;

whole __multi3(whole a, whole b) {
    half first = (half)a, second = (half)b;
    half low = (first & LOW) * (second & LOW);
    half cross = (first >> 32) * (second & LOW) + (low >> 32);
    half other = (first & LOW) * (second >> 32) + (cross & LOW);
    half high = (first >> 32) * (second >> 32) + (cross >> 32) + (other >> 32);
    high += first * (half)(b >> 64) + (half)(a >> 64) * second;
    return (whole)high << 64 | other << 32 | (low & LOW);
}
