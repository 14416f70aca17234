// Light or dark: what somebody chose, or else what the browser says.
const THEMES = ["light", "dark"];

// A theme that somebody chose is kept, where the browser keeps something for this page.
function keepTheme(theme) {
    document.documentElement.dataset.theme = theme;
    try {
        localStorage.setItem("theme", theme);
    } catch {
        // It is that of this page alone.
    }
}

export function takeTheme() {
    try {
        const theme = localStorage.getItem("theme");
        if (THEMES.includes(theme)) {
            document.documentElement.dataset.theme = theme;
        }
    } catch {
        // The browser's own theme counts.
    }
}

// From light to dark, or back.
export function turnTheme() {
    const {theme} = document.documentElement.dataset;
    const isDark = theme ? theme === "dark" : matchMedia("(prefers-color-scheme: dark)").matches;
    keepTheme(isDark ? "light" : "dark");
}
