// A vendored module, which the import map names: it knows nothing of hot reload.
export function signal(value) {
  const watchers = new Set();
  return {
    get value() { return value; },
    set(next) {
      value = next;
      watchers.forEach((watch) => watch(value));
    },
    watch(act) {
      watchers.add(act);
      act(value);
      return () => watchers.delete(act);
    },
  };
}
