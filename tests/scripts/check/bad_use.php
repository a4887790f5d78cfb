<?php
yield 1;