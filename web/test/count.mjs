// Runs cases and counts them. The last line that a test writes is 'N passed, M failed'.
export class Count {
  #passed = 0;
  #failed = 0;

  // Runs a case, and says what it tells or why it fails, which `why` makes of the fault.
  async run(name, action, why = async ({ message }) => message) {
    try {
      const told = await action();
      console.log(`ok   ${name}${told ? `: ${told}` : ''}`);
      this.#passed++;
    } catch (fault) {
      this.#failed++;
      console.log(`FAIL ${name}: ${await why(fault)}`);
    }
  }

  async runAll(cases) {
    for (const [name, action] of Object.entries(cases)) await this.run(name, action);
  }

  // Writes the last line.
  end() {
    console.log(`${this.#passed} passed, ${this.#failed} failed`);
    process.exitCode = this.#failed || !this.#passed ? 1 : 0;
  }
}
