print(type_of(1) + type_of("") + type_of('a'));
print(type_of([]) + type_of(#{}) + type_of(true));
print(type_of(blob(1, 0)) + type_of(|| 1) + type_of(()));
print(type_of(0..1) + " " + type_of(0..=1));
