// Overlays of polygons by the proved library, as a WebAssembly module with a 64-bit memory.

export const RULES = { union: 3, intersect: 2, difference: 4, xor: 6 };
export const FILLS = { evenodd: 0, nonzero: 1, positive: 2, negative: 3 };

export async function load(bytes) {
    const { instance } = await WebAssembly.instantiate(bytes, {});
    const calls = instance.exports;
    const text = (status) => {
        const all = new Uint8Array(calls.memory.buffer);
        const start = Number(calls.fadrinzo_text(status));
        return new TextDecoder().decode(all.subarray(start, all.indexOf(0, start)));
    };
    const check = (status) => {
        if (status) throw new Error(text(status));
    };

    // Lists of contours in, each a flat list x, y, x, y, ..; a list of shapes out, each a list of contours, its outer boundary first.
    function overlay(subject, clip, rule, fill = FILLS.nonzero) {
        const handle = calls.fadrinzo_new();
        if (!handle) throw new Error(text(1));
        try {
            [subject, clip].forEach((contours, shape) => {
                for (const contour of contours) {
                    const at = calls.malloc(BigInt(4 * contour.length));
                    if (!at) throw new Error(text(1));
                    new Int32Array(calls.memory.buffer, Number(at), contour.length).set(contour);
                    const status = calls.fadrinzo_add_contour(handle, shape, at, BigInt(contour.length / 2));
                    calls.free(at);
                    check(status);
                }
            });
            check(calls.fadrinzo_overlay_shapes(handle, rule, fill));
            const at = calls.malloc(56n);
            if (!at) throw new Error(text(1));
            calls.fadrinzo_get(at, handle);
            const [xy, contourStarts, shapeStarts, points, contours, shapes] = [...new BigUint64Array(calls.memory.buffer, Number(at), 6)].map(Number);
            calls.free(at);
            const list = (start, count) => [...new BigUint64Array(calls.memory.buffer, start, count + 1)].map(Number);
            const [ofContours, ofShapes] = [list(contourStarts, contours), list(shapeStarts, shapes)];
            const numbers = new Int32Array(calls.memory.buffer, xy, 2 * points);
            const contour = (i) => [...numbers.subarray(2 * ofContours[i], 2 * ofContours[i + 1])];
            return ofShapes.slice(1).map((end, i) => Array.from({ length: end - ofShapes[i] }, (_, j) => contour(ofShapes[i] + j)));
        } finally {
            calls.fadrinzo_free(handle);
        }
    }
    return { overlay, exports: calls };
}
