"""What the fuzzer draws by lot. Each function is handed a random.Random, which decides all."""
