// Asks the browser not to delete the page's data when disk space is short. Some browsers then ask the user for permission, so the page asks
// only once, and only when there is data to lose.

/**
 * The browser's storage manager, or a substitute in tests.
 * @typedef {{ persist: () => Promise<boolean> }} StorageManagerLike
 */

/** @returns {StorageManagerLike | null} null if the browser has no storage manager */
function getStorageManager() {
  const { storage } = navigator;
  return storage && typeof storage.persist === "function" ? storage : null;
}

export class Persistence {
  /** @param {StorageManagerLike | null} storageManager */
  constructor(storageManager = getStorageManager()) {
    this.storageManager = storageManager;
    this.hasRequested = false;
    /** True if the browser has promised not to delete the page's data. */
    this.isGranted = false;
  }

  async request() {
    if (this.hasRequested || !this.storageManager) return;
    this.hasRequested = true;
    try {
      this.isGranted = await this.storageManager.persist();
    } catch {
      // A browser that blocks site data can reject the request.
    }
  }
}
