// The contours of lines of POLYGON and MULTIPOLYGON: outer boundaries counterclockwise, holes clockwise. An error names the line.
export function contoursOf(text) {
    const contours = [];
    text.split(/\r?\n/).forEach((line, index) => {
        if (line.trim()) contours.push(...new Line(line, index + 1).polygons().flatMap((rings) => rings.map(directed)));
    });
    return contours;
}

class Line {
    constructor(line, number) {
        this.words = line.match(/[(),]|[^\s(),]+/g).map((word) => word.toUpperCase());
        this.number = number;
    }
    take(...wanted) {
        const word = this.words.shift() ?? "the end";
        if (!wanted.includes(word)) throw new Error(`line ${this.number}: ${word} is where ${wanted.join(" or ")} has to be`);
        return word;
    }
    group(item) {
        this.take("(");
        const items = [item()];
        while (this.take(",", ")") === ",") items.push(item());
        return items;
    }
    coordinate() {
        const word = this.words.shift() ?? "the end";
        if (!/^[+-]?(\d+(\.\d*)?|\.\d+)(E[+-]?\d+)?$/.test(word)) throw new Error(`line ${this.number}: ${word} is where a number has to be`);
        return Number(word);
    }
    rings() {
        if (this.words[0] === "EMPTY") return this.words.shift() && [];
        return this.group(() => this.group(() => [this.coordinate(), this.coordinate()]));
    }
    polygons() {
        const name = this.take("POLYGON", "MULTIPOLYGON");
        const found = name === "POLYGON" || this.words[0] === "EMPTY" ? [this.rings()] : this.group(() => this.rings());
        if (this.words.length) throw new Error(`line ${this.number}: ${this.words[0]} is where it has to end`);
        return found;
    }
}

function directed(ring, index) {
    const points = ring.length > 1 && String(ring[0]) === String(ring[ring.length - 1]) ? ring.slice(0, -1) : ring;
    const area = points.reduce((sum, [x, y], i) => sum + x * points[(i + 1) % points.length][1] - y * points[(i + 1) % points.length][0], 0);
    return (area < 0) === (index === 0) ? points.slice().reverse() : points;
}
