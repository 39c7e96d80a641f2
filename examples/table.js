// A table of towns, its rows at indexes, and an index of it by country.
let towns = {
    0: {town: "Bergen", country: "Norway", people: 291},
    1: {town: "Turku", country: "Finland", people: 202},
    2: {town: "Oslo", country: "Norway", people: 717},
    3: {town: "Oulu", country: "Finland", people: 214},
};
let countries = {};

for (let i = 0; i in towns; i += 1) {
    let row = towns[i];
    if (!(row.country in countries)) countries[row.country] = {size: 0, people: 0};
    let group = countries[row.country];
    group[group.size] = row;
    group.size += 1;
    group.people += row.people;
}

printNames(countries);
let norway = countries["Norway"];
print(norway.size, "towns", norway.people, "thousand");
for (let i = 0; i < norway.size; i += 1) print(norway[i].town, norway[i].people);
print("Sweden" in countries, countries.Sweden);
shared.countries = countries;
