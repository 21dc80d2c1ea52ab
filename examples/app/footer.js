export const footer = () => "Save a file of this folder, and look.";
