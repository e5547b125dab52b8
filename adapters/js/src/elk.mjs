// The class for `import` in Node.

import ELK from './elk.js';

export default ELK;
export { ELK };
export const { Refusal, ProgramError } = ELK;
