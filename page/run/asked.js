// @ts-check
// What buttons of the report ask for. `main.js` says what does it, so that no part of the report needs all of the page.
/**
 * @type {{run?: (given?: File | null, isButton?: boolean) => void, survey?: () => void,
 *     takeQuotesOff?: () => void}}
 */
export const asked = {};
