// Compares overlays with those that were computed before. Returns how many are the same.
export function compare(library, cases) {
    let same = 0, other = 0;
    for (const [subject, clip, rule, fill, wanted] of cases) {
        const found = library.overlay(subject, clip, rule, fill);
        if (JSON.stringify(found) === JSON.stringify(wanted)) same++;
        else if (!other++) console.log(JSON.stringify([subject, clip, rule, fill, wanted, found]));
    }
    return `${same} the same, ${other} other`;
}
