// a cache of few entries that forgets what was used least recently
fn new_cache(size) {
    #{
        size: size,
        values: #{},
        order: [],
        hits: 0,
        misses: 0,
        touch: |key| {
            this.order.retain(|other| other != key);
            this.order.push(key);
        },
        read: |key| {
            if key !in this.values {
                this.misses += 1;
                return ();
            }
            this.hits += 1;
            this.touch(key);
            this.values[key]
        },
        write: |key, value| {
            this.values[key] = value;
            this.touch(key);
            if this.order.len() > this.size {
                let oldest = this.order.shift();
                this.values.remove(oldest);
            }
        }
    }
}

let cache = new_cache(3);
cache.write("a", 1);
cache.write("b", 2);
cache.write("c", 3);
print(cache.order);
print(cache.read("a"));
cache.write("d", 4);
print(cache.order);
print(cache.read("b") ?? "b is forgotten");
cache.write("c", 33);
cache.write("e", 5);
print(cache.values);
print(cache.read("a") ?? "a is forgotten");
print(cache.read("c"));
print(cache.order);
print(`${cache.hits} hits, ${cache.misses} misses`);
