"""Taps a button by Selenium: `python3 tap_selenium.py PORT OUT.png`, over `vindaesk serve --port PORT --folder examples`."""
import sys

from selenium import webdriver
from selenium.common.exceptions import NoSuchElementException, StaleElementReferenceException
from selenium.webdriver.common.by import By
from selenium.webdriver.common.options import ArgOptions


class Card(ArgOptions):
    """The session that is asked for."""

    default_capabilities = {"platformName": "Android", "vindaesk:script": "card.script"}


driver = webdriver.Remote("http://127.0.0.1:%s" % sys.argv[1], options=Card())
reply = driver.find_element(By.XPATH, '//android.widget.TextView[@text="Reply"]')
print(reply.text, dict(sorted(reply.rect.items())))
print(reply.is_displayed(), reply.get_attribute("clickable"), reply.get_attribute("checked"))
driver.save_screenshot(sys.argv[2])
reply.click()
print(driver.execute_script("mobile: touches")[-2])
print(len(driver.find_elements(By.XPATH, '//*[@clickable="true"]')), "tappable")
try:
    driver.find_element(By.ID, "send")
except NoSuchElementException as error:
    print(type(error).__name__)
driver.execute_script("mobile: line", {"line": "remove v4"})
try:
    print(reply.text)
except StaleElementReferenceException as error:
    print(type(error).__name__)
driver.quit()
