"""A server of WebDriver, by which Selenium and Appium's clients drive sessions. docs/SERVE.md has what it takes."""
